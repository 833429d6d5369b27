/*
 * Preloaded into a built program: refuses one of its requests. REFUSE_MEMORY=N refuses the Nth
 * request for memory, REFUSE_READ=N the Nth read, REFUSE_WRITE=N the Nth write; where SHORT_WRITES
 * is set, a write takes one byte. Where BETWEEN_WRITES is set, only the requests for memory after
 * the first write and before the second count. At its end the program leaves in the file
 * REFUSE_COUNT how many of each it made.
 */
#define _GNU_SOURCE
#include <dlfcn.h>
#include <errno.h>
#include <stdio.h>
#include <stdlib.h>
#include <sys/syscall.h>
#include <unistd.h>

enum kind {
    MEMORY,
    READ,
    WRITE,
    KINDS
};

static const char *const names[KINDS] = {"REFUSE_MEMORY", "REFUSE_READ", "REFUSE_WRITE"};
static long wanted[KINDS], made[KINDS];
static int known, between;

static void learn(void) {
    for (int kind = 0; kind < KINDS; kind++) {
        const char *text = getenv(names[kind]);
        wanted[kind] = text ? atol(text) : 0;
    }
    between = getenv("BETWEEN_WRITES") != NULL;
    known = 1;
}

/* Counts one request, and says whether it is the one to be refused. */
static int refused(enum kind kind) {
    if (!known) learn();
    if (kind == MEMORY && between && made[WRITE] != 1) return 0;
    return __sync_add_and_fetch(&made[kind], 1) == wanted[kind];
}

/* The function of that name that the program would have called. */
#define REAL(name)                                                                                 \
    static __typeof__(name) *real;                                                                 \
    if (!real) real = (__typeof__(name) *)dlsym(RTLD_NEXT, #name)

void *malloc(size_t size) {
    REAL(malloc);
    return refused(MEMORY) ? NULL : real(size);
}

void *realloc(void *old, size_t size) {
    REAL(realloc);
    return refused(MEMORY) ? NULL : real(old, size);
}

void *aligned_alloc(size_t alignment, size_t size) {
    REAL(aligned_alloc);
    return refused(MEMORY) ? NULL : real(alignment, size);
}

int posix_memalign(void **place, size_t alignment, size_t size) {
    REAL(posix_memalign);
    return refused(MEMORY) ? ENOMEM : real(place, alignment, size);
}

ssize_t read(int file, void *bytes, size_t count) {
    REAL(read);
    if (refused(READ)) {
        errno = EIO;
        return -1;
    }
    return real(file, bytes, count);
}

ssize_t write(int file, const void *bytes, size_t count) {
    REAL(write);
    if (refused(WRITE)) {
        errno = ENOSPC;
        return -1;
    }
    return real(file, bytes, count > 1 && getenv("SHORT_WRITES") ? 1 : count);
}

__attribute__((destructor)) static void tell(void) {
    const char *path = getenv("REFUSE_COUNT");
    long counts[KINDS] = {made[MEMORY], made[READ], made[WRITE]};
    FILE *file = path ? fopen(path, "w") : NULL;
    if (!file) return;
    fprintf(file, "%ld %ld %ld\n", counts[MEMORY], counts[READ], counts[WRITE]);
    fclose(file);
}

/* The end of a program that may start threads, which calls no destructor. */
void _exit(int status) {
    tell();
    syscall(SYS_exit_group, status);
    __builtin_unreachable();
}
