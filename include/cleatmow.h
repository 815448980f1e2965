/*
 * The C calls of Cleatmow. A host links libcleatmow.a, which `make archive` writes to target/staticlib/.
 * What a call answers is decided by document 01, "Scope and rules", and document 02, "Requests", whose words are used
 * here.
 *
 * Every call:
 * - answers 0, or the number of a refusal (enum cleatmow_refusal). Its comment lists the refusals in the order in which
 *   they are tested; the first that applies is the answer.
 * - takes a list of octets as a pointer and a length in octets. Spare octets short of a whole point, level, number,
 *   group or field are not used. A pointer without a length is that of one value.
 * - leaves the places past its answer unchanged after success, and changes no buffer and no value on a refusal unless
 *   its comment says so. It writes nowhere else.
 * - keeps nothing and allocates nothing, so calls on buffers of their own may run at the same time.
 *
 * The caller's duties, which no call can test:
 * - behind each pointer stand as many octets as its length says. A pointer may be null only where its length is 0.
 * - behind a pointer without a length stands a value of its type; such a pointer is never null.
 * - a lent buffer or value overlaps no other argument, and nobody else uses it until the call returns.
 */
#ifndef CLEATMOW_H
#define CLEATMOW_H

/* The version of the calls and of this header. */
#define CLEATMOW_VERSION "0.6.0"
#define CLEATMOW_VERSION_MAJOR 0
#define CLEATMOW_VERSION_MINOR 6
#define CLEATMOW_VERSION_PATCH 0

#include <stddef.h>
#include <stdint.h>

#ifdef __cplusplus
extern "C" {
#endif

/* "What each number says" */
enum cleatmow_refusal {
    /* splitting method not 1 */
    CLEATMOW_REFUSAL_SPLITTING = 1,
    /* missing management above 2 */
    CLEATMOW_REFUSAL_MANAGEMENT = 2,
    /* differencing order not 1 or 2 */
    CLEATMOW_REFUSAL_ORDER = 3,
    /* descriptor octets not 1 to 4 */
    CLEATMOW_REFUSAL_DESCRIPTORS = 4,
    /* number width above 31, width or length bits above 32; run-length b not 1 to 15 or M above 2^b - 1 */
    CLEATMOW_REFUSAL_WIDTH = 5,
    /* group count 0 or above 4,194,304 */
    CLEATMOW_REFUSAL_GROUP_COUNT = 6,
    /* payload too short */
    CLEATMOW_REFUSAL_SHORT = 7,
    /* a group width above 31, or a length other than the last above 4,294,967,295 */
    CLEATMOW_REFUSAL_GROUP_SIZE = 8,
    /* points do not equal the declared count, or that count is above 4,194,304; where run-length reading stops before
       padding, the points are those before it */
    CLEATMOW_REFUSAL_POINTS = 9,
    /* a lent buffer is too small */
    CLEATMOW_REFUSAL_ROOM = 10,
    /* the first run-length code is a repeat */
    CLEATMOW_REFUSAL_REPEAT = 11,
    /* a restored number is beyond 2^60 either way */
    CLEATMOW_REFUSAL_BEYOND = 12,
    /* packing: list empty or above 4,194,304 numbers, a number above 2,147,483,647, lookahead outside 1 to 65,535;
       writing Section 5: a number that its octets do not hold; writing run-length: a level above M, or more than
       4,194,304 levels */
    CLEATMOW_REFUSAL_NUMBERS = 13,
    /* Section 5: fewer octets or fields than its template has (fewer than eleven octets name none), a length that is
       not its template's, a section number other than 5, or a template other than 5.2 and 5.3; for one point, other
       than 5.2 */
    CLEATMOW_REFUSAL_SECTION5 = 14,
    /* one point: its place is not below the declared count */
    CLEATMOW_REFUSAL_PLACE = 15
};

/* The greatest declared count. No call needs a buffer with room for more. */
#define CLEATMOW_MOST_POINTS 4194304

/*
 * The size of a point in octets: the mark (0 number, 1 missing 1, 2 missing 2), then the number in eight octets,
 * big-endian two's complement. A missing point holds number 0.
 */
#define CLEATMOW_POINT_OCTETS 9

/* The size of a level in octets: a number from 0 to M, big-endian. */
#define CLEATMOW_LEVEL_OCTETS 2

/* The greatest count of numbers that a list to pack has, the greatest number in it, and the greatest lookahead. */
#define CLEATMOW_MOST_NUMBERS 4194304
#define CLEATMOW_GREATEST_NUMBER 2147483647
#define CLEATMOW_GREATEST_LOOKAHEAD 65535

/* The size of a number to pack in octets, big-endian. */
#define CLEATMOW_NUMBER_OCTETS 4

/* The size of a group in octets: start, length, least number and width, four octets each, big-endian. */
#define CLEATMOW_GROUP_OCTETS 16

/*
 * The size of a packing's summary in octets: ten numbers of four octets each, big-endian. They are the number width;
 * the groups; the width reference and the width bits; the length reference, the increment, the last length and the
 * length bits; then the group count, which is the groups once more, and the payload length in octets.
 */
#define CLEATMOW_SUMMARY_OCTETS 40

/* What is the same in every packing: splitting method, missing management, and both missing values of Section 5. */
#define CLEATMOW_PACKING_SPLITTING 1
#define CLEATMOW_PACKING_MISSING 0
#define CLEATMOW_PACKING_MISSING_VALUE 0xffffffff

/* How many octets a Section 5 of template 5.2 has, and how many fields; and one of template 5.3. */
#define CLEATMOW_SECTION5_COMPLEX_OCTETS 47
#define CLEATMOW_SECTION5_COMPLEX_FIELDS 20
#define CLEATMOW_SECTION5_SPATIAL_OCTETS 49
#define CLEATMOW_SECTION5_SPATIAL_FIELDS 22

/* The size of a field in a list of fields: a number of four octets, big-endian, however many it has in Section 5. */
#define CLEATMOW_FIELD_OCTETS 4

/* The places of the fields of Section 5 in a list of them. Template 5.2 has all but the last two. */
enum cleatmow_field {
    CLEATMOW_FIELD_SECTION_LENGTH = 0,     /* octets 1 to 4: 47 or 49 */
    CLEATMOW_FIELD_SECTION_NUMBER = 1,     /* octet 5: 5 */
    CLEATMOW_FIELD_DECLARED = 2,           /* octets 6 to 9: the declared points, missing ones too */
    CLEATMOW_FIELD_TEMPLATE = 3,           /* octets 10 and 11: 2 or 3 */
    CLEATMOW_FIELD_REFERENCE = 4,          /* octets 12 to 15: the reference value, as bits */
    CLEATMOW_FIELD_BINARY_SCALE = 5,       /* octets 16 and 17, as bits */
    CLEATMOW_FIELD_DECIMAL_SCALE = 6,      /* octets 18 and 19, as bits */
    CLEATMOW_FIELD_NUMBER_WIDTH = 7,       /* octet 20 */
    CLEATMOW_FIELD_FIELD_TYPE = 8,         /* octet 21: the original field type */
    CLEATMOW_FIELD_SPLITTING = 9,          /* octet 22: the splitting method */
    CLEATMOW_FIELD_MISSING = 10,           /* octet 23: missing management */
    CLEATMOW_FIELD_PRIMARY_MISSING = 11,   /* octets 24 to 27 */
    CLEATMOW_FIELD_SECONDARY_MISSING = 12, /* octets 28 to 31 */
    CLEATMOW_FIELD_GROUPS = 13,            /* octets 32 to 35: the group count */
    CLEATMOW_FIELD_WIDTH_REFERENCE = 14,   /* octet 36 */
    CLEATMOW_FIELD_WIDTH_BITS = 15,        /* octet 37 */
    CLEATMOW_FIELD_LENGTH_REFERENCE = 16,  /* octets 38 to 41 */
    CLEATMOW_FIELD_INCREMENT = 17,         /* octet 42 */
    CLEATMOW_FIELD_LAST_LENGTH = 18,       /* octets 43 to 46 */
    CLEATMOW_FIELD_LENGTH_BITS = 19,       /* octet 47 */
    CLEATMOW_FIELD_ORDER = 20,             /* octet 48, in template 5.3 */
    CLEATMOW_FIELD_DESCRIPTOR_OCTETS = 21  /* octet 49, in template 5.3 */
};

/*
 * Unpacking: reads the points of a map under template 5.2 or 5.3 from the octets of its Section 5 and its payload. No
 * number of the template is typed.
 *
 * section5      the octets of Section 5, from its first on. More than the template has are not looked at
 * section5_len  how many octets there are
 * payload       the octets of Section 7 after its five-octet header
 * payload_len   how many octets the payload has
 * points        lent: room for the declared points, CLEATMOW_POINT_OCTETS each. Octets 6 to 9 of Section 5 declare them
 * points_len    how many octets are lent; more than the points take is fine
 *
 * Refusals, in this order: 14; then, under template 5.2, those of cleatmow_unpack_complex, or under 5.3 those of
 * cleatmow_unpack_spatial, in their order. A refusal changes nothing, but for 12, as there.
 * 0: the points stand at the front of `points`, as many as are declared; the octets past them are unchanged.
 */
uint32_t cleatmow_unpack(
    const uint8_t *section5, size_t section5_len,
    const uint8_t *payload, size_t payload_len,
    uint8_t *points, size_t points_len);

/*
 * One point: reads the point at a place of a map under template 5.2, from the octets of its Section 5 and its payload.
 * It is the point that cleatmow_unpack leaves there. The map is not unpacked, and no room for it is needed.
 *
 * place         which point of the map's list; the first is 0
 * section5      the octets of Section 5, from its first on. More than the template has are not looked at
 * section5_len  how many octets there are
 * payload       the octets of Section 7 after its five-octet header
 * payload_len   how many octets the payload has
 * mark          lent: one value, for the point's mark (0 number, 1 missing 1, 2 missing 2)
 * number        lent: one value, for its number; 0 where it is missing
 *
 * Refusals, in this order: 14, for a Section 5 of template 5.3 too; 1, 2, 6, 5, 7 for the group fields, 8, 7 for the
 * values, 9, as for cleatmow_unpack_complex, wherever in the map the fault is; 15. A refusal changes nothing.
 * 0: the mark stands in `mark`, and the number in `number`.
 */
uint32_t cleatmow_point(
    uint32_t place,
    const uint8_t *section5, size_t section5_len,
    const uint8_t *payload, size_t payload_len,
    uint8_t *mark, int64_t *number);

/*
 * Section 5: reads its fields. The numbers of its template are not judged; unpacking does that.
 *
 * section5      the octets of Section 5, from its first on. More than the template has are not looked at
 * section5_len  how many octets there are
 * fields        lent: room for CLEATMOW_SECTION5_COMPLEX_FIELDS fields under template 5.2, for
 *               CLEATMOW_SECTION5_SPATIAL_FIELDS under 5.3, CLEATMOW_FIELD_OCTETS each
 * fields_len    how many octets are lent; more than the fields take is fine
 *
 * Refusals, in this order: 14, 10. A refusal changes nothing.
 * 0: the fields stand at the front of `fields`, in the order of enum cleatmow_field; the octets past them are
 *    unchanged. Writing them gives back the octets of Section 5.
 */
uint32_t cleatmow_read_section5(
    const uint8_t *section5, size_t section5_len,
    uint8_t *fields, size_t fields_len);

/*
 * Section 5: writes its fields. Section length and section number are fields like the others, and must be right.
 *
 * fields        the fields in the order of enum cleatmow_field, CLEATMOW_FIELD_OCTETS each:
 *               CLEATMOW_SECTION5_COMPLEX_FIELDS under template 5.2, CLEATMOW_SECTION5_SPATIAL_FIELDS under 5.3. More
 *               than the template has are not looked at
 * fields_len    how many octets the fields have
 * section5      lent: CLEATMOW_SECTION5_COMPLEX_OCTETS octets under template 5.2, CLEATMOW_SECTION5_SPATIAL_OCTETS
 *               under 5.3
 * section5_len  how many octets are lent; more is fine
 *
 * Refusals, in this order: 14, for fewer fields than the template has too; 13 for a number that its octets do not hold;
 * 10. A refusal changes nothing.
 * 0: Section 5 stands at the front of `section5`, as many octets as its section length says; the octets past it are
 *    unchanged. Reading it gives back every field.
 */
uint32_t cleatmow_write_section5(
    const uint8_t *fields, size_t fields_len,
    uint8_t *section5, size_t section5_len);

/*
 * Unpacking under template 5.2: reads the points of a map. Pad bits and octets after the last value are ignored.
 *
 * declared     how many points the map is declared to have, missing ones too: up to CLEATMOW_MOST_POINTS
 * num_bits     number width, the bits of a group reference: up to 31
 * splitting    splitting method: 1
 * missing      missing management: 0, 1 or 2
 * num_groups   group count: 1 to 4,194,304
 * width_ref    width reference. A group's width, its width code + width_ref, is up to 31
 * width_bits   bits of a width code: up to 32
 * len_ref      length reference. A group's length is its length code * len_inc + len_ref, up to 4,294,967,295
 * len_inc      increment
 * len_last     length of the last group, whose length code is ignored
 * len_bits     bits of a length code: up to 32
 * payload      the octets of Section 7 after its five-octet header
 * payload_len  how many octets the payload has
 * points       lent: room for declared points, CLEATMOW_POINT_OCTETS each
 * points_len   how many octets are lent; more than the points take is fine
 *
 * Refusals, in this order: 1, 2, 6, 5, 7 for the group fields, 8, 7 for the values, 9, 10. A refusal changes nothing.
 * 0: the points stand at the front of `points`, declared times CLEATMOW_POINT_OCTETS octets; those past them are
 *    unchanged.
 */
uint32_t cleatmow_unpack_complex(
    uint32_t declared, uint8_t num_bits, uint8_t splitting, uint8_t missing,
    uint32_t num_groups, uint8_t width_ref, uint8_t width_bits,
    uint32_t len_ref, uint8_t len_inc, uint32_t len_last, uint8_t len_bits,
    const uint8_t *payload, size_t payload_len,
    uint8_t *points, size_t points_len);

/*
 * Unpacking under template 5.3: reads the points of a map and restores their numbers from differences. The payload
 * begins with the descriptors: as many first values as the order says, unsigned, then the overall minimum with a
 * leading sign bit.
 *
 * order              differencing order: 1 or 2
 * descriptor_octets  how many octets each first value takes, and the minimum: 1 to 4
 * The other arguments are those of cleatmow_unpack_complex.
 *
 * Refusals, in this order: 3, 1, 2, 4, 7 for the descriptors, 6, 5, 7 for the group fields, 8, 7 for the values, 9, 10,
 * 12. A refusal changes nothing, but for 12, which leaves number 0 and mark 0 in the declared places, those of missing
 * points too: declared times CLEATMOW_POINT_OCTETS octets of 0. They look like points and are none.
 * 0: as for cleatmow_unpack_complex.
 */
uint32_t cleatmow_unpack_spatial(
    uint32_t declared, uint8_t num_bits, uint8_t splitting, uint8_t missing,
    uint32_t num_groups, uint8_t width_ref, uint8_t width_bits,
    uint32_t len_ref, uint8_t len_inc, uint32_t len_last, uint8_t len_bits,
    uint8_t order, uint8_t descriptor_octets,
    const uint8_t *payload, size_t payload_len,
    uint8_t *points, size_t points_len);

/*
 * Run-length, template 7.200: reads the levels of a map. Once the declared count is reached, reading stops before any
 * code where fewer than 8 bits are left, all zero: padding. Else it goes on: all whole codes in the payload are read, and
 * fewer than `bits` bits at the end are ignored. A payload without a whole code has no points. A code in the padding would
 * be level 0, so up to b 7 a payload may be accepted for more than one declared count.
 *
 * bits         b, the bits of a code: 1 to 15
 * max_level    M, the greatest level: up to 2^b - 1. Codes 0 to M are levels, those above repeat the last level
 * declared     how many points the map is declared to have: up to CLEATMOW_MOST_POINTS
 * payload      the octets of Section 7 after its five-octet header
 * payload_len  how many octets the payload has
 * levels       lent: room for declared levels, CLEATMOW_LEVEL_OCTETS each
 * levels_len   how many octets are lent; more than the levels take is fine
 *
 * Refusals, in this order: 5, 11, 9, 10. A refusal changes nothing.
 * 0: the levels stand at the front of `levels`, declared times CLEATMOW_LEVEL_OCTETS octets; those past them are
 *    unchanged.
 */
uint32_t cleatmow_run_length(
    uint8_t bits, uint16_t max_level, uint32_t declared,
    const uint8_t *payload, size_t payload_len,
    uint8_t *levels, size_t levels_len);

/*
 * Run-length, template 7.200: writes the levels of a map. Each longest run is its level and then the run length less
 * one in digits of the base, 2^b - 1 - M, least first, no leading zero digit at the top, none at all for a run of one.
 * Digit d is code M + 1 + d. Where the base is below 2, a run repeats its level instead. Zero bits pad the last octet.
 * cleatmow_run_length reads the levels back, with as many declared.
 *
 * bits         b, the bits of a code: 1 to 15
 * max_level    M, the greatest level: up to 2^b - 1
 * levels       the list, up to CLEATMOW_MOST_POINTS levels of up to max_level, CLEATMOW_LEVEL_OCTETS each. An empty
 *              list has a payload of no octets
 * levels_len   how many octets the list has
 * payload      lent: room for the octets of Section 7 after its five-octet header. There are never more codes than
 *              levels, so (count of levels * bits + 7) / 8 octets are always enough
 * payload_len  how many octets are lent; more than the payload takes is fine
 * octets       lent: one value, for how many octets the payload has
 *
 * Refusals, in this order: 5, for an empty list too; 13; 10. A refusal changes nothing.
 * 0: the payload stands at the front of `payload`, and how many octets it has in `octets`; those past it are unchanged.
 */
uint32_t cleatmow_write_run_length(
    uint8_t bits, uint16_t max_level,
    const uint8_t *levels, size_t levels_len,
    uint8_t *payload, size_t payload_len,
    uint32_t *octets);

/*
 * Grouping and packing: makes the payload of a map under template 5.2 of a list of numbers. cleatmow_unpack_complex
 * reads the list back with the template numbers of the summary, CLEATMOW_PACKING_SPLITTING and
 * CLEATMOW_PACKING_MISSING; and cleatmow_unpack does with the Section 5 that cleatmow_write_section5 makes of them.
 *
 * lookahead    k, how many numbers are looked at before a group is ended: 1 to CLEATMOW_GREATEST_LOOKAHEAD
 * numbers      the list, 1 to CLEATMOW_MOST_NUMBERS numbers of up to CLEATMOW_GREATEST_NUMBER, CLEATMOW_NUMBER_OCTETS
 *              each
 * numbers_len  how many octets the list has
 * groups       lent: the group list, CLEATMOW_GROUP_OCTETS for each group. There are at most as many groups as numbers
 * groups_len   how many octets are lent; more than the groups take is fine
 * payload      lent: room for the octets of Section 7 after its five-octet header. Ten octets a number and four more
 *              are always enough
 * payload_len  how many octets are lent; more than the payload takes is fine
 * summary      lent: CLEATMOW_SUMMARY_OCTETS octets
 * summary_len  how many octets are lent; more is fine
 *
 * Refusals, in this order: 13, 10 for the summary, 10 for the group list, 10 for the payload. A refusal changes
 * nothing, but for two: 10 for the group list leaves the first groups in all lent places, and 10 for the payload leaves
 * all groups at the front of `groups`. Which of the three was too small is not said.
 * 0: groups, payload and summary stand at the front of what was lent for each, with the lengths that the summary says;
 *    the octets past them are unchanged.
 */
uint32_t cleatmow_pack(
    uint32_t lookahead,
    const uint8_t *numbers, size_t numbers_len,
    uint8_t *groups, size_t groups_len,
    uint8_t *payload, size_t payload_len,
    uint8_t *summary, size_t summary_len);

#ifdef __cplusplus
}
#endif

#endif
