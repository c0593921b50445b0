/* Loaded before a program (LD_PRELOAD), it refuses one growth: the one of the number in REFUSE_GROWTH, counted from 1. At each it writes
   how many were asked for so far to the file that GROWTHS names: a program may end without running what stands at its end. Used by
   refuse_growth.py. */
#define _GNU_SOURCE
#include <dlfcn.h>
#include <fcntl.h>
#include <stdio.h>
#include <stdlib.h>
#include <unistd.h>

static long asked;

static void tell(const char *name, long count) {
    static int file = -1;
    char text[32];
    int size = snprintf(text, sizeof text, "%ld\n", count);
    if (file < 0) file = open(name, O_CREAT | O_WRONLY | O_TRUNC, 0600);
    if (file >= 0 && pwrite(file, text, size, 0) != size) abort();
}

static int refused(void) {
    const char *number = getenv("REFUSE_GROWTH"), *name = getenv("GROWTHS");
    long mine = __atomic_add_fetch(&asked, 1, __ATOMIC_SEQ_CST);
    if (name) tell(name, mine);
    return number && mine == atol(number);
}

void *malloc(size_t size) {
    static void *(*inner)(size_t);
    if (!inner) inner = (void *(*)(size_t))dlsym(RTLD_NEXT, "malloc");
    return refused() ? NULL : inner(size);
}

void *realloc(void *old, size_t size) {
    static void *(*inner)(void *, size_t);
    if (!inner) inner = (void *(*)(void *, size_t))dlsym(RTLD_NEXT, "realloc");
    return refused() ? NULL : inner(old, size);
}
