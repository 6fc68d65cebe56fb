/* Lets one allocation of a program fail: that of the number in FAIL_AT, from 1. Writes to COUNT_TO how many there were. */
#define _GNU_SOURCE
#include <dlfcn.h>
#include <errno.h>
#include <stdatomic.h>
#include <stdio.h>
#include <stdlib.h>
#include <sys/syscall.h>
#include <unistd.h>

static atomic_ulong asked;

static int fails(void) {
    static atomic_ulong at;
    static atomic_int is_known;
    if (!is_known) {
        const char *said = getenv("FAIL_AT");
        at = said ? strtoul(said, NULL, 10) : 0;
        is_known = 1;
    }
    return ++asked == at;
}

/* The C library's function of that name. */
#define NEXT(name) \
    static __typeof__(name) *next; \
    if (!next) next = (__typeof__(name) *)dlsym(RTLD_NEXT, #name);

void *malloc(size_t size) {
    NEXT(malloc)
    if (fails()) {
        errno = ENOMEM;
        return NULL;
    }
    return next(size);
}

void *realloc(void *old, size_t size) {
    NEXT(realloc)
    if (fails()) {
        errno = ENOMEM;
        return NULL;
    }
    return next(old, size);
}

/* By this call the program ends. */
void _exit(int status) {
    unsigned long count = asked;
    const char *path = getenv("COUNT_TO");
    FILE *file = path ? fopen(path, "w") : NULL;
    if (file) {
        fprintf(file, "%lu\n", count);
        fclose(file);
    }
    syscall(SYS_exit_group, status);
    __builtin_unreachable();
}
