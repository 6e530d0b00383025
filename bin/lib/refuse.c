/* Loaded before a program's C library: refuses the allocation whose number, counted from 1, REFUSED names, or as many in a row from it on
 * as TIMES says. If MARKED is set, only those count that are asked for after a line "call" that the program writes, up to the next
 * line "done". As the program exits, the file that COUNTED names, if any, is given how many were asked for, and how many refused. It
 * serves bin/short-memory alone. */
#define _GNU_SOURCE
#include <errno.h>
#include <stdio.h>
#include <stdlib.h>
#include <string.h>
#include <sys/syscall.h>
#include <unistd.h>

extern void *__libc_malloc(size_t size);
extern void *__libc_realloc(void *block, size_t size);

enum { BEFORE, WITHIN, BEHIND };

static int place = BEFORE;
static long first, last, asked, refused;

static long number(const char *name, long missing) {
    const char *text = getenv(name);
    return text ? atol(text) : missing;
}

__attribute__((constructor)) static void begin(void) {
    first = number("REFUSED", 0);
    last = first + number("TIMES", 1) - 1;
    place = getenv("MARKED") ? BEFORE : WITHIN;
}

static int is_refused(void) {
    if (place != WITHIN) return 0;
    long now = __atomic_add_fetch(&asked, 1, __ATOMIC_SEQ_CST);
    if (now < first || last < now) return 0;
    __atomic_add_fetch(&refused, 1, __ATOMIC_SEQ_CST);
    errno = ENOMEM;
    return 1;
}

void *malloc(size_t size) {
    return is_refused() ? NULL : __libc_malloc(size);
}

void *realloc(void *block, size_t size) {
    return is_refused() ? NULL : __libc_realloc(block, size);
}

ssize_t write(int file, const void *text, size_t length) {
    if (place == WITHIN && length >= 4 && !memcmp(text, "done", 4)) place = BEHIND;
    ssize_t written = syscall(SYS_write, file, text, length);
    if (place == BEFORE && length >= 4 && !memcmp(text, "call", 4)) place = WITHIN;
    return written;
}

__attribute__((destructor)) static void count(void) {
    const char *name = getenv("COUNTED");
    place = BEHIND;
    FILE *file = name ? fopen(name, "w") : NULL;
    if (!file) return;
    fprintf(file, "%ld %ld\n", asked, refused);
    fclose(file);
}

/* So a program with threads ends, which runs no destructors. */
void _exit(int status) {
    count();
    syscall(SYS_exit_group, status);
    __builtin_unreachable();
}
