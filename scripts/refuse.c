/* Refuses an allocation of the program that it is loaded into, for scripts/check-alloc-faults: REFUSED is its number,
   counted from 1; with ONWARD all later ones are refused too; COUNTED is a file for the number of allocations. */
#define _GNU_SOURCE
#include <dlfcn.h>
#include <errno.h>
#include <fcntl.h>
#include <stdio.h>
#include <stdlib.h>
#include <unistd.h>

static long calls;

/* Leaves the number of allocations so far in a file that was asked for: the program ends without destructors. */
static void leave(void) {
    static int file = -2;
    char text[32];
    const char *name = getenv("COUNTED");
    if (file == -2) file = name ? open(name, O_WRONLY | O_CREAT, 0644) : -1;
    if (file >= 0 && pwrite(file, text, snprintf(text, sizeof text, "%ld\n", calls), 0) < 0) abort();
}

/* Whether this allocation is the one to be refused, or comes after it where those are refused too. */
static int refused(void) {
    const char *text = getenv("REFUSED");
    long number = text ? atol(text) : 0;
    long call = __atomic_add_fetch(&calls, 1, __ATOMIC_SEQ_CST);
    leave();
    if (number == 0 || call < number || (call > number && !getenv("ONWARD"))) return 0;
    errno = ENOMEM;
    return 1;
}

void *malloc(size_t size) {
    static void *(*next)(size_t);
    if (!next) next = (void *(*)(size_t))dlsym(RTLD_NEXT, "malloc");
    return refused() ? NULL : next(size);
}

void *realloc(void *block, size_t size) {
    static void *(*next)(void *, size_t);
    if (!next) next = (void *(*)(void *, size_t))dlsym(RTLD_NEXT, "realloc");
    return refused() ? NULL : next(block, size);
}
