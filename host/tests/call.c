/* A host in C: cases of the documents and their refusals. It ends with 0, or with the line that went wrong. */
#include "cleatmow.h"
#include <string.h>

#define EXPECT(fact) do { if (!(fact)) return __LINE__; } while (0)

/* A point as it stands in a lent buffer. */
static int is_point(const uint8_t *octets, uint8_t mark, int64_t number) {
    uint64_t rest = (uint64_t)number;
    int i;
    for (i = CLEATMOW_POINT_OCTETS - 1; i > 0; i--, rest >>= 8) {
        if (octets[i] != (uint8_t)rest) return 0;
    }
    return octets[0] == mark;
}

static int is_all(const uint8_t *octets, size_t len, uint8_t octet) {
    size_t i;
    for (i = 0; i < len && octets[i] == octet; i++) {}
    return i == len;
}

/* A macro's number, as text. */
#define TEXT(number) TEXT_OF(number)
#define TEXT_OF(number) #number

static int constants(void) {
    EXPECT(strcmp(CLEATMOW_VERSION, TEXT(CLEATMOW_VERSION_MAJOR) "." TEXT(CLEATMOW_VERSION_MINOR)
        "." TEXT(CLEATMOW_VERSION_PATCH)) == 0);
    EXPECT(CLEATMOW_MOST_POINTS == 4194304);
    EXPECT(CLEATMOW_POINT_OCTETS == 9 && CLEATMOW_LEVEL_OCTETS == 2);
    EXPECT(CLEATMOW_NUMBER_OCTETS == 4 && CLEATMOW_GROUP_OCTETS == 16 && CLEATMOW_SUMMARY_OCTETS == 40);
    EXPECT(CLEATMOW_MOST_NUMBERS == 4194304 && CLEATMOW_GREATEST_NUMBER == 2147483647);
    EXPECT(CLEATMOW_GREATEST_LOOKAHEAD == 65535);
    EXPECT(CLEATMOW_PACKING_SPLITTING == 1 && CLEATMOW_PACKING_MISSING == 0);
    EXPECT(CLEATMOW_PACKING_MISSING_VALUE == 0xFFFFFFFF);
    EXPECT(CLEATMOW_REFUSAL_SPLITTING == 1 && CLEATMOW_REFUSAL_NUMBERS == 13 && CLEATMOW_REFUSAL_SECTION5 == 14);
    EXPECT(CLEATMOW_REFUSAL_PLACE == 15);
    EXPECT(CLEATMOW_SECTION5_COMPLEX_OCTETS == 47 && CLEATMOW_SECTION5_COMPLEX_FIELDS == 20);
    EXPECT(CLEATMOW_SECTION5_SPATIAL_OCTETS == 49 && CLEATMOW_SECTION5_SPATIAL_FIELDS == 22);
    EXPECT(CLEATMOW_FIELD_OCTETS == 4 && CLEATMOW_FIELD_DESCRIPTOR_OCTETS == 21);
    return 0;
}

static int unpack_complex(void) {
    const uint8_t payload[] = {0xBC, 0x80, 0x40};
    uint8_t points[4 * CLEATMOW_POINT_OCTETS + 3];
    const size_t room = sizeof points;
    memset(points, 0xEE, room);

#define UNPACK(declared, width, splitting, missing, groups, reference, last, len, lent) cleatmow_unpack_complex( \
    declared, width, splitting, missing, groups, reference, 1, 3, 0, last, 0, payload, len, points, lent)
    EXPECT(UNPACK(4, 3, 0, 0, 2, 0, 1, 3, room) == CLEATMOW_REFUSAL_SPLITTING);
    EXPECT(UNPACK(4, 3, 1, 3, 2, 0, 1, 3, room) == CLEATMOW_REFUSAL_MANAGEMENT);
    EXPECT(UNPACK(4, 3, 1, 0, 0, 0, 1, 3, room) == CLEATMOW_REFUSAL_GROUP_COUNT);
    EXPECT(UNPACK(4, 32, 1, 0, 2, 0, 1, 3, room) == CLEATMOW_REFUSAL_WIDTH);
    EXPECT(UNPACK(4, 3, 1, 0, 2, 0, 1, 1, room) == CLEATMOW_REFUSAL_SHORT);
    EXPECT(UNPACK(4, 3, 1, 0, 2, 31, 1, 3, room) == CLEATMOW_REFUSAL_GROUP_SIZE);
    EXPECT(UNPACK(4, 3, 1, 0, 2, 0, 1, 2, room) == CLEATMOW_REFUSAL_SHORT);
    EXPECT(UNPACK(4, 3, 1, 0, 2, 0, 0, 3, room) == CLEATMOW_REFUSAL_POINTS);
    EXPECT(UNPACK(4, 3, 1, 0, 2, 0, 1, 3, 35) == CLEATMOW_REFUSAL_ROOM);
    EXPECT(is_all(points, room, 0xEE));

    EXPECT(UNPACK(4, 3, 1, 0, 2, 0, 1, 3, room) == 0);
    EXPECT(is_point(points, 0, 5) && is_point(points + 9, 0, 6));
    EXPECT(is_point(points + 18, 0, 5) && is_point(points + 27, 0, 7));
    EXPECT(is_all(points + 36, 3, 0xEE));
    EXPECT(UNPACK(4, 3, 1, 2, 2, 0, 1, 3, room) == 0);
    EXPECT(is_point(points, 2, 0) && is_point(points + 9, 1, 0));
    EXPECT(is_point(points + 18, 2, 0) && is_point(points + 27, 1, 0));
    EXPECT(is_all(points + 36, 3, 0xEE));

    /* An empty payload and an empty buffer, as null pointers. */
    EXPECT(cleatmow_unpack_complex(0, 0, 1, 0, 1, 0, 0, 0, 0, 0, 0, NULL, 0, NULL, 0) == 0);
    EXPECT(cleatmow_unpack_complex(3, 0, 1, 0, 1, 0, 0, 0, 0, 3, 0, NULL, 0, NULL, 0) == CLEATMOW_REFUSAL_ROOM);
    EXPECT(cleatmow_unpack_complex(3, 0, 1, 1, 1, 0, 0, 0, 0, 3, 0, NULL, 0, points, room) == 0);
    EXPECT(is_point(points, 1, 0) && is_point(points + 9, 1, 0) && is_point(points + 18, 1, 0));
    return 0;
}

static int unpack_spatial(void) {
    /* The last has first values 0 and 2^32 - 1, and minimum 0; each number is 2^31 - 1 more than a straight line. */
    const uint8_t first[] = {0x0A, 0x82, 0x0C, 0x50}, second[] = {0x0A, 0x0C, 0x81, 0x09};
    const uint8_t beyond[] = {0, 0, 0, 0, 0xFF, 0xFF, 0xFF, 0xFF, 0, 0, 0, 0, 0xFF, 0xFF, 0xFF, 0xFE};
    static uint8_t points[40000 * CLEATMOW_POINT_OCTETS + 3];
    const size_t room = sizeof points;
    memset(points, 0xEE, room);

#define RESTORE(order, octets, width, declared, payload, lent) cleatmow_unpack_spatial( \
    declared, 0, 1, 0, 1, width, 0, 0, 0, declared, 0, order, octets, payload, sizeof payload, points, lent)
    EXPECT(RESTORE(0, 1, 3, 4, first, room) == CLEATMOW_REFUSAL_ORDER);
    EXPECT(RESTORE(1, 5, 3, 4, first, room) == CLEATMOW_REFUSAL_DESCRIPTORS);
    EXPECT(RESTORE(1, 3, 3, 4, first, room) == CLEATMOW_REFUSAL_SHORT);
    EXPECT(RESTORE(1, 1, 3, 4, first, 35) == CLEATMOW_REFUSAL_ROOM);
    EXPECT(is_all(points, room, 0xEE));

    EXPECT(RESTORE(1, 1, 3, 4, first, room) == 0);
    EXPECT(is_point(points, 0, 10) && is_point(points + 9, 0, 11));
    EXPECT(is_point(points + 18, 0, 9) && is_point(points + 27, 0, 12));
    EXPECT(is_all(points + 36, room - 36, 0xEE));
    EXPECT(RESTORE(2, 1, 2, 4, second, room) == 0);
    EXPECT(is_point(points, 0, 10) && is_point(points + 9, 0, 12));
    EXPECT(is_point(points + 18, 0, 15) && is_point(points + 27, 0, 18));
    EXPECT(is_all(points + 36, room - 36, 0xEE));

    /* Every argument in its place: 12 leaves the declared places at 0, and those past them alone. */
    EXPECT(cleatmow_unpack_spatial(40000, 31, 1, 0, 1, 0, 0, 0, 0, 40000, 0, 2, 4, beyond, sizeof beyond, points, room)
        == CLEATMOW_REFUSAL_BEYOND);
    EXPECT(is_all(points, room - 3, 0) && is_all(points + room - 3, 3, 0xEE));
    return 0;
}

static int run_length(void) {
    const uint8_t good[] = {0x3C, 0xB5}, repeat[] = {0xC3, 0xB5}, three[] = {0, 3}, five[] = {0, 5};
    const uint8_t padded[] = {0x3C, 0x50}, front[] = {0, 3, 0, 3, 0, 3, 0, 5};
    uint8_t levels[10 * CLEATMOW_LEVEL_OCTETS + 3];
    size_t i;
    memset(levels, 0xEE, sizeof levels);

    EXPECT(cleatmow_run_length(4, 16, 10, good, 2, levels, sizeof levels) == CLEATMOW_REFUSAL_WIDTH);
    EXPECT(cleatmow_run_length(4, 9, 10, repeat, 2, levels, sizeof levels) == CLEATMOW_REFUSAL_REPEAT);
    EXPECT(cleatmow_run_length(4, 9, 9, good, 2, levels, sizeof levels) == CLEATMOW_REFUSAL_POINTS);
    EXPECT(cleatmow_run_length(4, 9, 10, good, 2, levels, 19) == CLEATMOW_REFUSAL_ROOM);
    EXPECT(is_all(levels, sizeof levels, 0xEE));

    EXPECT(cleatmow_run_length(4, 9, 10, good, 2, levels, sizeof levels) == 0);
    for (i = 0; i < 9; i++) EXPECT(memcmp(levels + 2 * i, three, CLEATMOW_LEVEL_OCTETS) == 0);
    EXPECT(memcmp(levels + 18, five, CLEATMOW_LEVEL_OCTETS) == 0);
    EXPECT(is_all(levels + 20, 3, 0xEE));

    /* Padding is left unread, and what was lent beyond the declared levels is unchanged. */
    memset(levels, 0xEE, sizeof levels);
    EXPECT(cleatmow_run_length(4, 9, 3, padded, 2, levels, sizeof levels) == CLEATMOW_REFUSAL_POINTS);
    EXPECT(cleatmow_run_length(4, 9, 4, padded, 2, levels, 7) == CLEATMOW_REFUSAL_ROOM);
    EXPECT(is_all(levels, sizeof levels, 0xEE));
    EXPECT(cleatmow_run_length(4, 9, 4, padded, 2, levels, sizeof levels) == 0);
    EXPECT(memcmp(levels, front, sizeof front) == 0);
    EXPECT(is_all(levels + sizeof front, sizeof levels - sizeof front, 0xEE));

    /* An empty payload and an empty buffer, as null pointers. */
    EXPECT(cleatmow_run_length(4, 9, 0, NULL, 0, NULL, 0) == 0);
    EXPECT(cleatmow_run_length(4, 9, 1, NULL, 0, NULL, 0) == CLEATMOW_REFUSAL_POINTS);
    EXPECT(cleatmow_run_length(4, 9, 10, good, 2, NULL, 0) == CLEATMOW_REFUSAL_ROOM);
    return 0;
}

static int write_run_length(void) {
    /* Nine times 3, 5, and a spare octet. */
    const uint8_t list[] = {0, 3, 0, 3, 0, 3, 0, 3, 0, 3, 0, 3, 0, 3, 0, 3, 0, 3, 0, 5, 9};
    const uint8_t written[] = {0x3C, 0xB5}, padded[] = {0x3C, 0x50}, repeated[] = {0x33, 0x35};
    static uint8_t many[(CLEATMOW_MOST_POINTS + 1) * CLEATMOW_LEVEL_OCTETS];
    uint8_t payload[5], levels[10 * CLEATMOW_LEVEL_OCTETS];
    uint32_t counts[] = {0xEEEEEEEE, 0xEEEEEEEE, 0xEEEEEEEE};
    const size_t room = sizeof payload;
    memset(payload, 0xEE, room);

#define WRITE(bits, max_level, list, len, lent) \
    cleatmow_write_run_length(bits, max_level, list, len, payload, lent, counts + 1)
    EXPECT(WRITE(0, 9, list, 21, room) == CLEATMOW_REFUSAL_WIDTH);
    EXPECT(WRITE(16, 9, list, 21, room) == CLEATMOW_REFUSAL_WIDTH);
    EXPECT(WRITE(4, 16, list, 0, 0) == CLEATMOW_REFUSAL_WIDTH);
    EXPECT(WRITE(4, 4, list, 21, 0) == CLEATMOW_REFUSAL_NUMBERS);
    EXPECT(WRITE(4, 9, many, sizeof many, 0) == CLEATMOW_REFUSAL_NUMBERS);
    EXPECT(WRITE(4, 9, list, 21, 1) == CLEATMOW_REFUSAL_ROOM);
    EXPECT(is_all(payload, room, 0xEE) && counts[1] == 0xEEEEEEEE);

    EXPECT(WRITE(4, 9, list, 21, room) == 0 && counts[1] == 2);
    EXPECT(memcmp(payload, written, 2) == 0 && is_all(payload + 2, room - 2, 0xEE));
    EXPECT(cleatmow_run_length(4, 9, 10, payload, counts[1], levels, sizeof levels) == 0);
    EXPECT(memcmp(levels, list, sizeof levels) == 0);
    EXPECT(WRITE(4, 9, list + 12, 8, 2) == 0 && counts[1] == 2 && memcmp(payload, padded, 2) == 0);
    EXPECT(WRITE(4, 14, list + 12, 8, 2) == 0 && counts[1] == 2 && memcmp(payload, repeated, 2) == 0);
    EXPECT(WRITE(4, 9, many, sizeof many - 2, room) == 0 && counts[1] == 5);
    EXPECT(counts[0] == 0xEEEEEEEE && counts[2] == 0xEEEEEEEE);

    /* An empty list and an empty buffer, as null pointers. */
    EXPECT(cleatmow_write_run_length(4, 9, NULL, 0, NULL, 0, counts + 1) == 0 && counts[1] == 0);
    EXPECT(cleatmow_write_run_length(4, 16, NULL, 0, NULL, 0, counts + 1) == CLEATMOW_REFUSAL_WIDTH);
    EXPECT(cleatmow_write_run_length(4, 9, list, 2, NULL, 0, counts + 1) == CLEATMOW_REFUSAL_ROOM && counts[1] == 0);
    return 0;
}

/* Numbers of four octets each, big-endian. */
static int are_numbers(const uint8_t *octets, size_t count, const uint32_t *numbers) {
    size_t i;
    for (i = 0; i < count; i++, octets += 4) {
        const uint32_t high = (uint32_t)octets[0] << 24 | (uint32_t)octets[1] << 16;
        if ((high | (uint32_t)octets[2] << 8 | octets[3]) != numbers[i]) return 0;
    }
    return 1;
}

static int pack(void) {
    /* 5 6 5 7 and a spare octet; and a number of 32 bits. */
    const uint8_t list[] = {0, 0, 0, 5, 0, 0, 0, 6, 0, 0, 0, 5, 0, 0, 0, 7, 9};
    const uint8_t great[] = {0, 0, 0, 5, 0x80, 0, 0, 0};
    const uint8_t written[] = {0xBC, 0x80, 0x40};
    const uint32_t two_groups[] = {0, 3, 5, 1, 3, 1, 7, 0}, numbers[] = {3, 2, 0, 1, 3, 0, 1, 0, 2, 3};
    uint8_t groups[2 * CLEATMOW_GROUP_OCTETS + 3], payload[5], summary[CLEATMOW_SUMMARY_OCTETS + 3];
    uint8_t points[4 * CLEATMOW_POINT_OCTETS];
    const size_t slots = sizeof groups, room = sizeof payload, forty = sizeof summary;
    memset(groups, 0xEE, slots);
    memset(payload, 0xEE, room);
    memset(summary, 0xEE, forty);

#define PACK(lookahead, list, len, groups_len, payload_len, summary_len) cleatmow_pack( \
    lookahead, list, len, groups, groups_len, payload, payload_len, summary, summary_len)
    EXPECT(PACK(0, list, 17, slots, room, forty) == CLEATMOW_REFUSAL_NUMBERS);
    EXPECT(PACK(65536, list, 17, slots, room, forty) == CLEATMOW_REFUSAL_NUMBERS);
    EXPECT(PACK(4, list, 3, slots, room, forty) == CLEATMOW_REFUSAL_NUMBERS);
    EXPECT(PACK(4, great, 8, 0, 0, 0) == CLEATMOW_REFUSAL_NUMBERS);
    EXPECT(PACK(4, list, 17, slots, room, 39) == CLEATMOW_REFUSAL_ROOM);
    EXPECT(is_all(groups, slots, 0xEE) && is_all(payload, room, 0xEE) && is_all(summary, forty, 0xEE));

    /* A short group list keeps the first groups, in whole places alone; a short payload leaves all groups. */
    EXPECT(PACK(4, list, 17, 31, room, forty) == CLEATMOW_REFUSAL_ROOM);
    EXPECT(are_numbers(groups, 4, two_groups) && is_all(groups + 16, slots - 16, 0xEE));
    EXPECT(PACK(4, list, 17, slots, 2, forty) == CLEATMOW_REFUSAL_ROOM);
    EXPECT(are_numbers(groups, 8, two_groups) && is_all(groups + 32, slots - 32, 0xEE));
    EXPECT(is_all(payload, room, 0xEE) && is_all(summary, forty, 0xEE));

    memset(groups, 0xEE, slots);
    EXPECT(PACK(4, list, 17, slots, room, forty) == 0);
    EXPECT(are_numbers(groups, 8, two_groups) && is_all(groups + 32, slots - 32, 0xEE));
    EXPECT(memcmp(payload, written, 3) == 0 && is_all(payload + 3, room - 3, 0xEE));
    EXPECT(are_numbers(summary, 10, numbers) && is_all(summary + 40, forty - 40, 0xEE));
    EXPECT(cleatmow_unpack_complex(4, 3, CLEATMOW_PACKING_SPLITTING, CLEATMOW_PACKING_MISSING, 2, 0, 1, 3, 0, 1, 0,
        payload, 3, points, sizeof points) == 0);
    EXPECT(is_point(points, 0, 5) && is_point(points + 9, 0, 6));
    EXPECT(is_point(points + 18, 0, 5) && is_point(points + 27, 0, 7));

    /* An empty list and empty buffers, as null pointers; and a payload of no octets. */
    EXPECT(cleatmow_pack(1, NULL, 0, NULL, 0, NULL, 0, NULL, 0) == CLEATMOW_REFUSAL_NUMBERS);
    EXPECT(cleatmow_pack(1, list, 4, NULL, 0, NULL, 0, NULL, 0) == CLEATMOW_REFUSAL_ROOM);
    EXPECT(cleatmow_pack(1, list, 4, NULL, 0, NULL, 0, summary, forty) == CLEATMOW_REFUSAL_ROOM);
    EXPECT(cleatmow_pack(1, list, 4, groups, 16, NULL, 0, summary, forty) == CLEATMOW_REFUSAL_ROOM);
    EXPECT(cleatmow_pack(1, list + 1, 4, groups, 16, payload, room, summary, forty) == 0);
    memset(points, 0, sizeof points);
    EXPECT(cleatmow_pack(1, points, 8, groups, 16, NULL, 0, summary, forty) == 0);
    EXPECT(is_all(summary, 4, 0) && is_all(summary + 36, 4, 0));
    return 0;
}

/* A Section 5 of template 5.2, one of 5.3, and what stands in them. */
static const uint8_t complex5[] = {0, 0, 0, 47, 5, 0, 0, 0, 4, 0, 2, 0xBF, 0xC0, 0, 0, 0x80, 3, 0, 1, 3, 1, 1, 0,
    255, 255, 255, 255, 255, 255, 255, 254, 0, 0, 0, 2, 0, 1, 0, 0, 0, 3, 0, 0, 0, 0, 1, 0};
static const uint8_t spatial5[] = {0, 0, 0, 49, 5, 0, 0, 0, 4, 0, 3, 0, 0, 0, 0, 0, 0, 0, 0, 0, 0, 1, 0,
    0, 0, 0, 0, 0, 0, 0, 0, 0, 0, 0, 1, 3, 0, 0, 0, 0, 0, 0, 0, 0, 0, 4, 0, 1, 1};
static const uint32_t complex_fields[] = {47, 5, 4, 2, 0xBFC00000, 0x8003, 1, 3, 1, 1, 0, 0xFFFFFFFF, 0xFFFFFFFE, 2,
    0, 1, 3, 0, 1, 0};
static const uint32_t spatial_fields[] = {49, 5, 4, 3, 0, 0, 0, 0, 0, 1, 0, 0, 0, 1, 3, 0, 0, 0, 4, 0, 1, 1};

static int section5(void) {
    uint8_t fields[CLEATMOW_SECTION5_SPATIAL_FIELDS * CLEATMOW_FIELD_OCTETS + 3];
    uint8_t octets[CLEATMOW_SECTION5_SPATIAL_OCTETS + 3];
    const size_t slots = sizeof fields, room = sizeof octets;
    memset(fields, 0xEE, slots);
    memset(octets, 0xEE, room);

    /* 14 comes before 10. */
    EXPECT(cleatmow_read_section5(complex5, 46, fields, 0) == CLEATMOW_REFUSAL_SECTION5);
    EXPECT(cleatmow_read_section5(complex5 + 1, 46, fields, slots) == CLEATMOW_REFUSAL_SECTION5);
    EXPECT(cleatmow_read_section5(complex5, sizeof complex5, fields, 79) == CLEATMOW_REFUSAL_ROOM);
    EXPECT(cleatmow_read_section5(spatial5, sizeof spatial5, fields, 87) == CLEATMOW_REFUSAL_ROOM);
    EXPECT(is_all(fields, slots, 0xEE));
    EXPECT(cleatmow_read_section5(complex5, sizeof complex5, fields, slots) == 0);
    EXPECT(are_numbers(fields, 20, complex_fields) && is_all(fields + 80, slots - 80, 0xEE));

    /* 14 comes before 13, and 13 before 10. */
    EXPECT(cleatmow_write_section5(fields, 79, octets, 0) == CLEATMOW_REFUSAL_SECTION5);
    fields[CLEATMOW_FIELD_OCTETS * CLEATMOW_FIELD_LENGTH_BITS + 2] = 1;
    EXPECT(cleatmow_write_section5(fields, 80, octets, 0) == CLEATMOW_REFUSAL_NUMBERS);
    fields[CLEATMOW_FIELD_OCTETS * CLEATMOW_FIELD_SECTION_NUMBER + 3] = 7;
    EXPECT(cleatmow_write_section5(fields, 80, octets, room) == CLEATMOW_REFUSAL_SECTION5);
    fields[CLEATMOW_FIELD_OCTETS * CLEATMOW_FIELD_SECTION_NUMBER + 3] = 5;
    fields[CLEATMOW_FIELD_OCTETS * CLEATMOW_FIELD_LENGTH_BITS + 2] = 0;
    EXPECT(cleatmow_write_section5(fields, 80, octets, 46) == CLEATMOW_REFUSAL_ROOM);
    EXPECT(is_all(octets, room, 0xEE));
    EXPECT(cleatmow_write_section5(fields, 80, octets, room) == 0);
    EXPECT(memcmp(octets, complex5, 47) == 0 && is_all(octets + 47, room - 47, 0xEE));

    EXPECT(cleatmow_read_section5(spatial5, sizeof spatial5, fields, slots) == 0);
    EXPECT(are_numbers(fields, 22, spatial_fields) && is_all(fields + 88, slots - 88, 0xEE));
    EXPECT(cleatmow_write_section5(fields, slots, octets, room) == 0);
    EXPECT(memcmp(octets, spatial5, 49) == 0 && is_all(octets + 49, room - 49, 0xEE));

    /* No octets, no fields and empty buffers, as null pointers. */
    EXPECT(cleatmow_read_section5(NULL, 0, NULL, 0) == CLEATMOW_REFUSAL_SECTION5);
    EXPECT(cleatmow_read_section5(complex5, sizeof complex5, NULL, 0) == CLEATMOW_REFUSAL_ROOM);
    EXPECT(cleatmow_write_section5(NULL, 0, NULL, 0) == CLEATMOW_REFUSAL_SECTION5);
    EXPECT(cleatmow_write_section5(fields, slots, NULL, 0) == CLEATMOW_REFUSAL_ROOM);
    return 0;
}

static int unpack(void) {
    const uint8_t numbers[] = {0xBC, 0x80, 0x40}, differences[] = {0x0A, 0x82, 0x0C, 0x50};
    uint8_t points[4 * CLEATMOW_POINT_OCTETS + 3];
    const size_t room = sizeof points;
    memset(points, 0xEE, room);

    EXPECT(cleatmow_unpack(complex5, 46, numbers, 3, points, room) == CLEATMOW_REFUSAL_SECTION5);
    EXPECT(cleatmow_unpack(complex5, 47, numbers, 2, points, room) == CLEATMOW_REFUSAL_SHORT);
    EXPECT(cleatmow_unpack(complex5, 47, numbers, 3, points, 35) == CLEATMOW_REFUSAL_ROOM);
    EXPECT(cleatmow_unpack(spatial5, 48, differences, 4, points, room) == CLEATMOW_REFUSAL_SECTION5);
    EXPECT(cleatmow_unpack(spatial5, 49, differences, 1, points, room) == CLEATMOW_REFUSAL_SHORT);
    EXPECT(cleatmow_unpack(NULL, 0, NULL, 0, NULL, 0) == CLEATMOW_REFUSAL_SECTION5);
    EXPECT(is_all(points, room, 0xEE));

    EXPECT(cleatmow_unpack(complex5, 47, numbers, 3, points, room) == 0);
    EXPECT(is_point(points, 0, 5) && is_point(points + 9, 0, 6));
    EXPECT(is_point(points + 18, 0, 5) && is_point(points + 27, 0, 7));
    EXPECT(is_all(points + 36, 3, 0xEE));
    EXPECT(cleatmow_unpack(spatial5, 49, differences, 4, points, room) == 0);
    EXPECT(is_point(points, 0, 10) && is_point(points + 9, 0, 11));
    EXPECT(is_point(points + 18, 0, 9) && is_point(points + 27, 0, 12));
    EXPECT(is_all(points + 36, 3, 0xEE));
    return 0;
}

/* complex5 with other numbers. */
static const uint8_t *section5_of(uint8_t declared, uint8_t width, uint8_t splitting, uint8_t missing, uint8_t groups,
    uint8_t reference, uint8_t width_bits) {
    static uint8_t octets[sizeof complex5];
    memcpy(octets, complex5, sizeof octets);
    octets[8] = declared;
    octets[19] = width;
    octets[21] = splitting;
    octets[22] = missing;
    octets[34] = groups;
    octets[35] = reference;
    octets[36] = width_bits;
    return octets;
}

static int point(void) {
    const uint8_t payload[] = {0xBC, 0x80, 0x40};
    uint8_t marks[] = {0xEE, 0xEE, 0xEE};
    int64_t numbers[] = {-1, -1, -1};

#define POINT(place, declared, width, splitting, missing, groups, reference, len) cleatmow_point(place, \
    section5_of(declared, width, splitting, missing, groups, reference, 1), 47, payload, len, marks + 1, numbers + 1)
    EXPECT(cleatmow_point(0, complex5, 46, payload, 3, marks + 1, numbers + 1) == CLEATMOW_REFUSAL_SECTION5);
    EXPECT(cleatmow_point(0, spatial5, 49, payload, 3, marks + 1, numbers + 1) == CLEATMOW_REFUSAL_SECTION5);
    EXPECT(cleatmow_point(0, NULL, 0, NULL, 0, marks + 1, numbers + 1) == CLEATMOW_REFUSAL_SECTION5);
    EXPECT(POINT(0, 4, 3, 0, 0, 2, 0, 3) == CLEATMOW_REFUSAL_SPLITTING);
    EXPECT(POINT(0, 4, 3, 1, 3, 2, 0, 3) == CLEATMOW_REFUSAL_MANAGEMENT);
    EXPECT(POINT(0, 4, 3, 1, 0, 0, 0, 3) == CLEATMOW_REFUSAL_GROUP_COUNT);
    EXPECT(POINT(0, 4, 32, 1, 0, 2, 0, 3) == CLEATMOW_REFUSAL_WIDTH);
    EXPECT(POINT(0, 4, 3, 1, 0, 2, 0, 1) == CLEATMOW_REFUSAL_SHORT);
    EXPECT(POINT(0, 4, 3, 1, 0, 2, 31, 3) == CLEATMOW_REFUSAL_GROUP_SIZE);
    EXPECT(POINT(0, 4, 3, 1, 0, 2, 0, 2) == CLEATMOW_REFUSAL_SHORT);
    EXPECT(POINT(0, 3, 3, 1, 0, 2, 0, 3) == CLEATMOW_REFUSAL_POINTS);
    EXPECT(POINT(5, 5, 3, 1, 0, 2, 0, 3) == CLEATMOW_REFUSAL_POINTS);
    EXPECT(POINT(4, 4, 3, 1, 0, 2, 0, 3) == CLEATMOW_REFUSAL_PLACE);
    EXPECT(POINT(0xFFFFFFFF, 4, 3, 1, 0, 2, 0, 3) == CLEATMOW_REFUSAL_PLACE);
    EXPECT(is_all(marks, 3, 0xEE) && numbers[1] == -1);

    EXPECT(POINT(0, 4, 3, 1, 0, 2, 0, 3) == 0 && marks[1] == 0 && numbers[1] == 5);
    EXPECT(POINT(1, 4, 3, 1, 0, 2, 0, 3) == 0 && marks[1] == 0 && numbers[1] == 6);
    EXPECT(POINT(3, 4, 3, 1, 0, 2, 0, 3) == 0 && marks[1] == 0 && numbers[1] == 7);
    /* Both are written where a point is missing, too. */
    EXPECT(POINT(0, 4, 3, 1, 2, 2, 0, 3) == 0 && marks[1] == 2 && numbers[1] == 0);
    numbers[1] = -1;
    EXPECT(POINT(3, 4, 3, 1, 1, 2, 0, 3) == 0 && marks[1] == 1 && numbers[1] == 0);
    EXPECT(POINT(2, 4, 3, 1, 1, 2, 0, 3) == 0 && marks[1] == 0 && numbers[1] == 5);
    EXPECT(marks[0] == 0xEE && marks[2] == 0xEE && numbers[0] == -1 && numbers[2] == -1);

    /* An empty payload, as a null pointer: one group of one point, of number width 0 and width 0. */
    marks[1] = 0xEE;
    EXPECT(cleatmow_point(0, section5_of(1, 0, 1, 0, 1, 0, 0), 47, NULL, 0, marks + 1, numbers + 1) == 0);
    EXPECT(marks[1] == 0 && numbers[1] == 0);
    return 0;
}

int main(void) {
    int line = constants();
    if (line == 0) line = unpack_complex();
    if (line == 0) line = unpack_spatial();
    if (line == 0) line = run_length();
    if (line == 0) line = write_run_length();
    if (line == 0) line = pack();
    if (line == 0) line = section5();
    if (line == 0) line = unpack();
    if (line == 0) line = point();
    return line;
}
