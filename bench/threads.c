/* Loaded before the C library, it refuses one thread of a program: the one whose number, from 1, stands in REFUSE_THREAD. At 0 it refuses none, and
   writes the number of each to standard error as it starts. */
#define _GNU_SOURCE
#include <dlfcn.h>
#include <errno.h>
#include <pthread.h>
#include <stdatomic.h>
#include <stddef.h>
#include <stdio.h>
#include <stdlib.h>

static atomic_long count;

int pthread_create(pthread_t *thread, const pthread_attr_t *how, void *(*run)(void *), void *with) {
    int (*next)(pthread_t *, const pthread_attr_t *, void *(*)(void *), void *) = dlsym(RTLD_NEXT, "pthread_create");
    const char *text = getenv("REFUSE_THREAD");
    long refused = text ? atol(text) : -1;
    long number = atomic_fetch_add(&count, 1) + 1;
    if (refused == 0) fprintf(stderr, "%ld\n", number);
    return number == refused ? EAGAIN : next(thread, how, run, with);
}
