/* The least host, in C and in C++: it reads a map of ten levels and prints them. */
#include "cleatmow.h"
#include <stdio.h>

int main(void) {
    const uint8_t payload[] = {0x3C, 0xB5};
    uint8_t levels[10 * CLEATMOW_LEVEL_OCTETS];
    const uint32_t refusal = cleatmow_run_length(4, 9, 10, payload, sizeof payload, levels, sizeof levels);
    for (size_t i = 0; refusal == 0 && i < sizeof levels; i += CLEATMOW_LEVEL_OCTETS) {
        printf("%d\n", levels[i] << 8 | levels[i + 1]);
    }
    return (int)refusal;
}
