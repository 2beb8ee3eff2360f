// Preloaded into a program: counts the bytes that it asks of malloc, realloc, aligned_alloc and posix_memalign, and prints the count on standard error as it ends.
#define _GNU_SOURCE
#include <dlfcn.h>
#include <stdio.h>
#include <stdlib.h>

static unsigned long long asked;

void *malloc(size_t size) {
    static void *(*next)(size_t);
    if (next == NULL) {
        next = dlsym(RTLD_NEXT, "malloc");
    }
    asked += size;
    return next(size);
}

void *realloc(void *old, size_t size) {
    static void *(*next)(void *, size_t);
    if (next == NULL) {
        next = dlsym(RTLD_NEXT, "realloc");
    }
    asked += size;
    return next(old, size);
}

void *aligned_alloc(size_t align, size_t size) {
    static void *(*next)(size_t, size_t);
    if (next == NULL) {
        next = dlsym(RTLD_NEXT, "aligned_alloc");
    }
    asked += size;
    return next(align, size);
}

int posix_memalign(void **out, size_t align, size_t size) {
    static int (*next)(void **, size_t, size_t);
    if (next == NULL) {
        next = dlsym(RTLD_NEXT, "posix_memalign");
    }
    asked += size;
    return next(out, align, size);
}

__attribute__((destructor)) static void print(void) {
    fprintf(stderr, "asked %llu\n", asked);
}
