/*
 * The calls of include/cleatmow.h on a machine that is no x86-64: each is carried to an x86-64 process under an
 * emulator, which has the archive (there.c), and its answer is brought back. Nothing is allocated. What cannot be
 * carried, or comes back with a fault, ends the host with one sentence: it never looks like an answer. The process is a
 * child of the host, and ends with it; a host that waits for just any child waits for this one too.
 */
#define _GNU_SOURCE
#include "cleatmow.h"
#include "between.h"

#include <errno.h>
#include <fcntl.h>
#include <poll.h>
#include <sched.h>
#include <signal.h>
#include <stdatomic.h>
#include <stdio.h>
#include <stdlib.h>
#include <string.h>
#include <sys/mman.h>
#include <sys/uio.h>
#include <sys/wait.h>
#include <unistd.h>

/* The build says EMULATOR, the path of the emulator that it found, and PROGRAM, that of the linked there.c. */
#define EMULATOR_NAME "qemu-x86_64"

/* The program stands in the host's own octets, so that a host works where PROGRAM is gone. */
__asm__(".section .rodata\nthe_program:\n.incbin \"" PROGRAM "\"\nthe_program_end:\n.previous\n");
extern const uint8_t the_program[] __attribute__((visibility("hidden")));
extern const uint8_t the_program_end[] __attribute__((visibility("hidden")));

#define NAME(name) "cleatmow_" #name,
static const char *const names[CALLS] = {EVERY_CALL(NAME)};

#define STOP(...) (dprintf(STDERR_FILENO, "cleatmow: " __VA_ARGS__), abort())

/*
 * An emulated process: who uses it now, and who started it, as process ids, 0 for nobody. The host keeps the end of the
 * requests that the process reads, too: so a write after the end of the process raises no signal.
 */
static struct emulated {
    _Atomic pid_t user;
    pid_t starter;
    pid_t process;
    int requests, requests_end, answers;
} places[64];

static int is_the_program(int file) {
    uint8_t octets[4096];
    const uint8_t *place = the_program;
    ssize_t count;
    while ((count = read(file, octets, sizeof octets)) > 0) {
        if (count > the_program_end - place || memcmp(octets, place, (size_t)count) != 0) return 0;
        place += count;
    }
    return count == 0 && place == the_program_end;
}

/* A file that holds the program: the build's own if it still does, which works where no file may grow, or a new one. */
static int program_file(void) {
    const uint8_t *place = the_program;
    int file = open(PROGRAM, O_RDONLY | O_CLOEXEC);
    if (file >= 0 && is_the_program(file)) return file;
    if (file >= 0) close(file);
    file = memfd_create("cleatmow", MFD_CLOEXEC);
    while (file >= 0 && place < the_program_end) {
        const ssize_t count = write(file, place, (size_t)(the_program_end - place));
        if (count < 0 && errno != EINTR) STOP("the x86-64 program cannot be laid into memory: %s\n", strerror(errno));
        if (count > 0) place += count;
    }
    if (file < 0) STOP("there is no memory for the x86-64 program: %s\n", strerror(errno));
    return file;
}

/* In the forked process: the pipes become its standard input and output, and the program descriptor 3. */
static _Noreturn void become(int requests, int answers, int file) {
    char *const words[] = {EMULATOR_NAME, "/proc/self/fd/3", NULL};
    requests = fcntl(requests, F_DUPFD_CLOEXEC, 4);
    answers = fcntl(answers, F_DUPFD_CLOEXEC, 4);
    file = fcntl(file, F_DUPFD_CLOEXEC, 4);
    if (dup2(requests, 0) == 0 && dup2(answers, 1) == 1 && dup2(file, 3) == 3) {
        signal(SIGPIPE, SIG_IGN);
        execvp(EMULATOR, words);
        execvp(EMULATOR_NAME, words);
    }
    _exit(127);
}

static void start(struct emulated *emulated) {
    int requests[2], answers[2];
    const int file = program_file();
    if (pipe2(requests, O_CLOEXEC) != 0 || pipe2(answers, O_CLOEXEC) != 0
        || fcntl(requests[1], F_SETFL, O_NONBLOCK) != 0) STOP("no pipe to the emulator: %s\n", strerror(errno));
    emulated->process = fork();
    if (emulated->process < 0) STOP("no process for the emulator: %s\n", strerror(errno));
    if (emulated->process == 0) become(requests[0], answers[1], file);
    close(answers[1]);
    close(file);
    emulated->requests = requests[1];
    emulated->requests_end = requests[0];
    emulated->answers = answers[0];
    emulated->starter = getpid();
}

static void leave(const struct emulated *emulated) {
    close(emulated->requests);
    close(emulated->requests_end);
    close(emulated->answers);
}

/* One that nobody uses. What a process had before it forked is the other's: its child starts its own. */
static struct emulated *taken(void) {
    const pid_t self = getpid();
    for (size_t i = 0;; i = (i + 1) % (sizeof places / sizeof *places)) {
        struct emulated *emulated = &places[i];
        pid_t user = atomic_load(&emulated->user);
        if (user != self && atomic_compare_exchange_strong(&emulated->user, &user, self)) {
            if (emulated->starter == self) return emulated;
            if (emulated->starter != 0) leave(emulated);
            start(emulated);
            return emulated;
        }
        if (i + 1 == sizeof places / sizeof *places) sched_yield();
    }
}

/* An orderly end leaves no process behind. One that is still used ends when its pipes do. */
__attribute__((destructor)) static void end_all(void) {
    const pid_t self = getpid();
    for (size_t i = 0; i < sizeof places / sizeof *places; i++) {
        pid_t nobody = 0;
        if (places[i].starter != self || !atomic_compare_exchange_strong(&places[i].user, &nobody, self)) continue;
        leave(&places[i]);
        waitpid(places[i].process, NULL, 0);
    }
}

static _Noreturn void stopped(const struct emulated *emulated, const char *name, const struct answer *answer) {
    int status = 0;
    const int place = (int)answer->argument + 1;
    if (answer->fault == WRITTEN_OUTSIDE) STOP("%s wrote outside argument %d\n", name, place);
    if (answer->fault == READ_CHANGED) STOP("%s changed argument %d, which it may only read\n", name, place);
    if (waitpid(emulated->process, &status, 0) != emulated->process) STOP("%s was cut off\n", name);
    if (WIFSIGNALED(status)) STOP("%s was ended by signal %d under the emulator\n", name, WTERMSIG(status));
    if (WEXITSTATUS(status) != 127) STOP("%s ended with %d under the emulator\n", name, WEXITSTATUS(status));
    STOP("%s needs " EMULATOR_NAME ", which is neither at " EMULATOR " nor on the PATH\n", name);
}

/* Waits for room in the pipe of the requests. A process that says something before it was asked, or ends, has none. */
static int has_room(const struct emulated *emulated) {
    struct pollfd ends[] = {{emulated->requests, POLLOUT, 0}, {emulated->answers, POLLIN, 0}};
    return (poll(ends, 2, -1) >= 0 || errno == EINTR) && ends[1].revents == 0;
}

enum direction { SEND, RECEIVE };

/* Carries all parts. None is empty. */
static int carry(const struct emulated *emulated, enum direction direction, struct iovec *part, int parts) {
    while (parts > 0) {
        ssize_t count = direction == SEND ? writev(emulated->requests, part, parts)
            : readv(emulated->answers, part, parts);
        if (count < 0 && (errno == EINTR || (errno == EAGAIN && has_room(emulated)))) continue;
        if (count <= 0) return 0;
        for (; parts > 0 && (size_t)count >= part->iov_len; part++, parts--) count -= (ssize_t)part->iov_len;
        if (parts > 0) *part = (struct iovec){(uint8_t *)part->iov_base + count, part->iov_len - (size_t)count};
    }
    return 1;
}

/* Lists a head, and after it the octets of all arguments of a kind or of a later one. */
static int listed(struct iovec *parts, void *head, size_t len, const struct request *request, enum kind from) {
    int count = 1;
    parts[0] = (struct iovec){head, len};
    for (uint32_t i = 0; i < request->count; i++) {
        const struct argument *argument = &request->argument[i];
        if (argument->kind < from || argument->value == 0) continue;
        parts[count++] = (struct iovec){argument->octets, argument->value};
    }
    return count;
}

static uint32_t carried(struct request *request) {
    struct iovec parts[1 + MOST_WORDS];
    struct answer answer = {0, NO_FAULT, 0};
    struct emulated *emulated = taken();
    const size_t len = offsetof(struct request, argument) + request->count * sizeof *request->argument;
    int count = listed(parts, request, len, request, READ);
    int whole = carry(emulated, SEND, parts, count);
    count = listed(parts, &answer, sizeof answer, request, LENT);
    whole = whole && carry(emulated, RECEIVE, parts, count);
    if (!whole || answer.fault != NO_FAULT) stopped(emulated, names[request->call], &answer);
    atomic_store(&emulated->user, 0);
    return answer.number;
}

#define NUMBER_PARAMETER(type, name) type name
#define READ_PARAMETER(name) const uint8_t *name, size_t name##_len
#define LENT_PARAMETER(name) uint8_t *name, size_t name##_len
#define PLACE_PARAMETER(type, name) type *name

#define NUMBER_ARGUMENT(type, name) {NUMBER, (uint64_t)name, NULL}
#define READ_ARGUMENT(name) {READ, name##_len, (uint8_t *)name}
#define LENT_ARGUMENT(name) {LENT, name##_len, name}
#define PLACE_ARGUMENT(type, name) {PLACE, sizeof *name, (uint8_t *)name}

#define ONE(...) 1
#define TWO(...) 1, 1
#define COUNT(...) sizeof (char[]){__VA_ARGS__}

#define CARRIED(name) \
    _Static_assert(COUNT(name##_TAKES(ONE, TWO, TWO, ONE)) <= MOST_WORDS, #name); \
    uint32_t cleatmow_##name( \
        name##_TAKES(NUMBER_PARAMETER, READ_PARAMETER, LENT_PARAMETER, PLACE_PARAMETER)) { \
        struct request request = {CALL_##name, COUNT(name##_TAKES(ONE, ONE, ONE, ONE)), { \
            name##_TAKES(NUMBER_ARGUMENT, READ_ARGUMENT, LENT_ARGUMENT, PLACE_ARGUMENT)}}; \
        return carried(&request); \
    }
EVERY_CALL(CARRIED)
