/*
 * The x86-64 side of an emulated call: a program that has the archive, and no C library, so that nothing in it can
 * allocate. It reads requests from its standard input and answers them on its standard output, until there are no more.
 *
 * Every slice stands in a room of its own between two pages that cannot be touched. At every other call it begins where
 * the room begins, else it ends where the room ends; on its other side are guard octets.
 */
typedef __UINT8_TYPE__ uint8_t;
typedef __UINT16_TYPE__ uint16_t;
typedef __UINT32_TYPE__ uint32_t;
typedef __UINT64_TYPE__ uint64_t;

#include "between.h"

#define PAGE 4096

/* Of Linux on x86-64. */
enum { SYSTEM_READ = 0, SYSTEM_WRITE = 1, SYSTEM_MMAP = 9, SYSTEM_MPROTECT = 10, SYSTEM_MUNMAP = 11, SYSTEM_EXIT = 60 };
enum { PROTECT_NONE = 0, PROTECT_READ_WRITE = 3, MAP_PRIVATE_ANONYMOUS = 0x22, INTERRUPTED = -4 };

/* Exit statuses: there is no more to do; a fault is told; the system gives no memory; the other side is gone. */
enum { DONE = 0, FAULTY = 1, NO_MEMORY = 2, CUT_OFF = 3 };

static long ask(long call, uint64_t a, uint64_t b, uint64_t c, uint64_t d, uint64_t e, uint64_t f) {
    register uint64_t fourth __asm__("r10") = d, fifth __asm__("r8") = e, sixth __asm__("r9") = f;
    __asm__ volatile("syscall" : "+a"(call) : "D"(a), "S"(b), "d"(c), "r"(fourth), "r"(fifth), "r"(sixth)
        : "rcx", "r11", "memory");
    return call;
}

static _Noreturn void end(int status) {
    for (;;) ask(SYSTEM_EXIT, (uint64_t)status, 0, 0, 0, 0, 0);
}

/* What compilers may ask for, of whoever has no C library. */
void *memset(void *to, int octet, uint64_t len) {
    for (uint64_t i = 0; i < len; i++) ((uint8_t *)to)[i] = (uint8_t)octet;
    return to;
}

void *memcpy(void *restrict to, const void *restrict from, uint64_t len) {
    for (uint64_t i = 0; i < len; i++) ((uint8_t *)to)[i] = ((const uint8_t *)from)[i];
    return to;
}

static int same(const uint8_t *one, const uint8_t *other, uint64_t len) {
    uint8_t differ = 0;
    for (uint64_t i = 0; i < len; i++) differ |= one[i] ^ other[i];
    return differ == 0;
}

/* What is read or to be written, so that a small call takes one reading and one writing. */
struct held {
    uint64_t from, to;
    uint8_t octets[65536];
};
static struct held in, out;

/* Reads at least one octet, and up to so many. */
static uint64_t read_some(uint8_t *to, uint64_t len, int at_end) {
    long count;
    do count = ask(SYSTEM_READ, 0, (uint64_t)to, len, 0, 0, 0);
    while (count == INTERRUPTED);
    if (count <= 0) end(at_end);
    return (uint64_t)count;
}

static void take(void *place, uint64_t len) {
    uint8_t *to = place;
    uint64_t ready = in.to - in.from < len ? in.to - in.from : len;
    memcpy(to, in.octets + in.from, ready);
    in.from += ready;
    while (ready < len) ready += read_some(to + ready, len - ready, CUT_OFF);
}

static void write_all(const uint8_t *from, uint64_t len) {
    while (len > 0) {
        const long count = ask(SYSTEM_WRITE, 1, (uint64_t)from, len, 0, 0, 0);
        if (count == INTERRUPTED) continue;
        if (count <= 0) end(CUT_OFF);
        from += count;
        len -= (uint64_t)count;
    }
}

static void flush(void) {
    write_all(out.octets, out.to);
    out.to = 0;
}

static void give(const void *from, uint64_t len) {
    if (len > sizeof out.octets - out.to) flush();
    if (len > sizeof out.octets) {
        write_all(from, len);
    } else {
        memcpy(out.octets + out.to, from, len);
        out.to += len;
    }
}

/* The guard octets, by words: emulated, single octets take their time. */
#define GUARD_WORDS 8
#define GUARD (8 * GUARD_WORDS)
typedef uint64_t __attribute__((aligned(1), may_alias)) word;

/* A room for each argument, its guard octets, and a copy of what is read. */
static struct room {
    uint8_t *start, *copy;
    word *guard;
    uint64_t size;
} rooms[MOST_WORDS];

static void enlarge(struct room *room, uint64_t size) {
    if (room->size != 0) ask(SYSTEM_MUNMAP, (uint64_t)room->start - PAGE, room->size + 2 * PAGE, 0, 0, 0, 0);
    room->size = (size + PAGE - 1) / PAGE * PAGE;
    const long page = ask(SYSTEM_MMAP, 0, room->size + 2 * PAGE, PROTECT_NONE, MAP_PRIVATE_ANONYMOUS, (uint64_t)-1, 0);
    if (page < 0 && page > -PAGE) end(NO_MEMORY);
    room->start = (uint8_t *)page + PAGE;
    if (ask(SYSTEM_MPROTECT, (uint64_t)room->start, room->size, PROTECT_READ_WRITE, 0, 0, 0) != 0) end(NO_MEMORY);
}

/* The guard changes with every call, so that what depends on octets outside does not stay the same. */
static uint64_t guard_word = 0x25007B5691AC6700;
static int at_start;

static void lay(struct argument *argument, struct room *room) {
    const uint64_t len = argument->value, needed = 2 * len + GUARD;
    if (room->size < needed) enlarge(room, 2 * needed);
    argument->octets = at_start ? room->start : room->start + room->size - len;
    room->guard = (word *)(at_start ? argument->octets + len : argument->octets - GUARD);
    room->copy = at_start ? argument->octets + len + GUARD : argument->octets - GUARD - len;
    for (int i = 0; i < GUARD_WORDS; i++) room->guard[i] = guard_word;
    take(argument->octets, len);
    if (argument->kind == READ) memcpy(room->copy, argument->octets, len);
}

static enum fault fault_in(const struct argument *argument, const struct room *room) {
    for (int i = 0; i < GUARD_WORDS; i++) {
        if (room->guard[i] != guard_word) return WRITTEN_OUTSIDE;
    }
    if (argument->kind == READ && !same(room->copy, argument->octets, argument->value)) return READ_CHANGED;
    return NO_FAULT;
}

/* A pointer to no octets is handed over as the caller has it. */
static int has_octets(const struct argument *argument) {
    return argument->kind != NUMBER && argument->value > 0;
}

/*
 * A call with as many words as any takes. Numbers and pointers go into registers and then onto the stack, in order, and
 * a function does not see what it does not take.
 */
#define SIX(w) w, w, w, w, w, w
typedef uint32_t function(SIX(uint64_t), SIX(uint64_t), SIX(uint64_t), SIX(uint64_t));
#define DECLARED(name) function cleatmow_##name;
#define ADDRESS(name) cleatmow_##name,
EVERY_CALL(DECLARED)
static function *const functions[CALLS] = {EVERY_CALL(ADDRESS)};

static uint32_t called(const struct request *request) {
    uint64_t w[MOST_WORDS] = {0};
    int count = 0;
    for (uint32_t i = 0; i < request->count; i++) {
        const struct argument *argument = &request->argument[i];
        if (argument->kind != NUMBER) w[count++] = (uint64_t)argument->octets;
        if (argument->kind != PLACE) w[count++] = argument->value;
    }
    return functions[request->call](w[0], w[1], w[2], w[3], w[4], w[5], w[6], w[7], w[8], w[9], w[10], w[11], w[12],
        w[13], w[14], w[15], w[16], w[17], w[18], w[19], w[20], w[21], w[22], w[23]);
}

static void serve(struct request *request) {
    struct answer answer = {0, NO_FAULT, 0};
    struct argument *const all = request->argument;
    for (uint32_t i = 0; i < request->count; i++) {
        if (has_octets(&all[i])) lay(&all[i], &rooms[i]);
    }
    answer.number = called(request);
    for (uint32_t i = 0; i < request->count && answer.fault == NO_FAULT; i++) {
        answer.argument = i;
        if (has_octets(&all[i])) answer.fault = fault_in(&all[i], &rooms[i]);
    }
    give(&answer, sizeof answer);
    for (uint32_t i = 0; i < request->count && answer.fault == NO_FAULT; i++) {
        if (has_octets(&all[i]) && all[i].kind != READ) give(all[i].octets, all[i].value);
    }
    flush();
    if (answer.fault != NO_FAULT) end(FAULTY);
    guard_word = ~guard_word;
    at_start = !at_start;
}

_Noreturn void serve_all(void) {
    struct request request;
    for (;;) {
        in.from = 0;
        in.to = read_some(in.octets, sizeof in.octets, DONE);
        take(&request, __builtin_offsetof(struct request, argument));
        take(request.argument, request.count * sizeof *request.argument);
        serve(&request);
    }
}

/* The stack is as a function expects it: aligned, with the place of a return on top. */
__asm__(".globl _start\n_start:\n xorl %ebp, %ebp\n andq $-16, %rsp\n call serve_all\n");
