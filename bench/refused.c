// Refuses threads of a program: the one of the number REFUSED, counted from 0; each one where that is `all`; none
// where it is `none`. It is loaded in front of the C library.
#define _GNU_SOURCE
#include <dlfcn.h>
#include <errno.h>
#include <pthread.h>
#include <stdlib.h>
#include <string.h>

typedef int Create(pthread_t *, const pthread_attr_t *, void *(*)(void *), void *);

static long asked;

static int refuses(void) {
    long number = __atomic_fetch_add(&asked, 1, __ATOMIC_SEQ_CST);
    const char *refused = getenv("REFUSED");
    if (!refused || strcmp(refused, "none") == 0) return 0;
    return strcmp(refused, "all") == 0 || number == atol(refused);
}

int pthread_create(pthread_t *thread, const pthread_attr_t *attributes, void *(*run)(void *), void *argument) {
    Create *create = (Create *)dlsym(RTLD_NEXT, "pthread_create");
    return refuses() ? EAGAIN : create(thread, attributes, run, argument);
}
