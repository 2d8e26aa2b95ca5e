// Refuses one request for memory of a program: the one of the number that REFUSED says, from 1. Where it is 0, none is refused, and the end
// of the program tells how many there were. A program can say so itself: a request for SIGNAL octets and a number more is refused, and of
// those behind it the one of that number; none for 0. Loaded before the C library (LD_PRELOAD) by tools/memory.
#define _GNU_SOURCE
#include <dlfcn.h>
#include <stddef.h>
#include <errno.h>
#include <stdio.h>
#include <stdlib.h>

// As in tools/gathering, with room for as many numbers.
#define SIGNAL (1UL << 46)
#define NUMBERS (1UL << 30)

static unsigned long asked, refused;
static int known;

// Whether a request for so many octets is refused.
static int refuses(size_t size) {
    if (!known) {
        const char *text = getenv("REFUSED");
        refused = text ? strtoul(text, NULL, 10) : 0;
        known = 1;
    }
    if (size >= SIGNAL && size < SIGNAL + NUMBERS) {
        asked = 0;
        refused = size - SIGNAL;
        errno = ENOMEM;
        return 1;
    }
    asked += 1;
    if (asked != refused) return 0;
    errno = ENOMEM;
    return 1;
}

__attribute__((destructor)) static void tell(void) {
    if (known && refused == 0) fprintf(stderr, "asked %lu\n", asked);
}

void *malloc(size_t size) {
    static void *(*own)(size_t);
    if (!own) own = (void *(*)(size_t))dlsym(RTLD_NEXT, "malloc");
    return refuses(size) ? NULL : own(size);
}

void *realloc(void *old, size_t size) {
    static void *(*own)(void *, size_t);
    if (!own) own = (void *(*)(void *, size_t))dlsym(RTLD_NEXT, "realloc");
    return refuses(size) ? NULL : own(old, size);
}

void *aligned_alloc(size_t alignment, size_t size) {
    static void *(*own)(size_t, size_t);
    if (!own) own = (void *(*)(size_t, size_t))dlsym(RTLD_NEXT, "aligned_alloc");
    return refuses(size) ? NULL : own(alignment, size);
}

int posix_memalign(void **out, size_t alignment, size_t size) {
    static int (*own)(void **, size_t, size_t);
    if (!own) own = (int (*)(void **, size_t, size_t))dlsym(RTLD_NEXT, "posix_memalign");
    return refuses(size) ? ENOMEM : own(out, alignment, size);
}
