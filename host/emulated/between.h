/*
 * What goes between the two sides of an emulated call: here.c, in the host's process, and there.c, in an x86-64 process
 * that has the archive. Both are little-endian. Whoever includes this has the types of <stdint.h>.
 */
#ifndef BETWEEN_H
#define BETWEEN_H

/* Every call of include/cleatmow.h, without the cleatmow_ before it. */
#define EVERY_CALL(call) \
    call(unpack) \
    call(point) \
    call(read_section5) \
    call(write_section5) \
    call(unpack_complex) \
    call(unpack_spatial) \
    call(run_length) \
    call(write_run_length) \
    call(pack)

/*
 * What each call takes, by its names in the header and in their order: a number of a type; a slice that is read or one
 * that is lent, which is a pointer and a length; a place for one value of a type, which is a pointer alone. These four
 * are in capitals, which no argument of the header's is.
 */
#define unpack_TAKES(NUMBER, READ, LENT, PLACE) READ(section5), READ(payload), LENT(points)
#define point_TAKES(NUMBER, READ, LENT, PLACE) \
    NUMBER(uint32_t, place), READ(section5), READ(payload), PLACE(uint8_t, mark), PLACE(int64_t, number)
#define read_section5_TAKES(NUMBER, READ, LENT, PLACE) READ(section5), LENT(fields)
#define write_section5_TAKES(NUMBER, READ, LENT, PLACE) READ(fields), LENT(section5)
#define unpack_complex_TAKES(NUMBER, READ, LENT, PLACE) TEMPLATE(NUMBER), READ(payload), LENT(points)
#define unpack_spatial_TAKES(NUMBER, READ, LENT, PLACE) \
    TEMPLATE(NUMBER), NUMBER(uint8_t, order), NUMBER(uint8_t, descriptor_octets), READ(payload), LENT(points)
#define run_length_TAKES(NUMBER, READ, LENT, PLACE) \
    NUMBER(uint8_t, bits), NUMBER(uint16_t, max_level), NUMBER(uint32_t, declared), READ(payload), LENT(levels)
#define write_run_length_TAKES(NUMBER, READ, LENT, PLACE) \
    NUMBER(uint8_t, bits), NUMBER(uint16_t, max_level), READ(levels), LENT(payload), PLACE(uint32_t, octets)
#define pack_TAKES(NUMBER, READ, LENT, PLACE) \
    NUMBER(uint32_t, lookahead), READ(numbers), LENT(groups), LENT(payload), LENT(summary)

#define TEMPLATE(NUMBER) \
    NUMBER(uint32_t, declared), NUMBER(uint8_t, num_bits), NUMBER(uint8_t, splitting), NUMBER(uint8_t, missing), \
    NUMBER(uint32_t, num_groups), NUMBER(uint8_t, width_ref), NUMBER(uint8_t, width_bits), \
    NUMBER(uint32_t, len_ref), NUMBER(uint8_t, len_inc), NUMBER(uint32_t, len_last), NUMBER(uint8_t, len_bits)

#define NUMBER_OF(name) CALL_##name,
enum call { EVERY_CALL(NUMBER_OF) CALLS };

/* How many words a call may take: a slice is two, any other argument one. */
#define MOST_WORDS 24

enum kind { NUMBER, READ, LENT, PLACE };

struct argument {
    uint64_t kind;
    /* The number, or how many octets. */
    uint64_t value;
    /* Where the octets stand on the side that reads this. */
    uint8_t *octets;
};

/*
 * As many arguments as it says go over, and after them the octets of every slice and place, those to be written to as
 * well: what they hold may stay.
 */
struct request {
    uint32_t call;
    uint32_t count;
    struct argument argument[MOST_WORDS];
};

enum fault { NO_FAULT, WRITTEN_OUTSIDE, READ_CHANGED };

/* After it come the octets of every slice that is lent and of every place. After a fault nothing comes. */
struct answer {
    uint32_t number;
    uint32_t fault;
    /* Which argument the fault is in, from 0 on. */
    uint32_t argument;
};

#endif
