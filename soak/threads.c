// Refuses threads of a program, and keeps it on some processors. It is loaded in front of the C library. REFUSED may hold the
// number of a thread, counted from 0, or `all`: each such thread isn't made, as where the system has no room for it.
// PROCESSORS may hold two numbers: of the processors that the process may use it gets as many as the second one says, from
// that of the first one on, round about.
#define _GNU_SOURCE
#include <dlfcn.h>
#include <errno.h>
#include <pthread.h>
#include <sched.h>
#include <stdio.h>
#include <stdlib.h>
#include <string.h>

typedef int create(pthread_t *, const pthread_attr_t *, void *(*)(void *), void *);

static create *make;
static int refuses_all;
static long refused = -1, made;

static void keep_on(long first, long count) {
    cpu_set_t allowed, kept;
    if (sched_getaffinity(0, sizeof allowed, &allowed)) abort();
    long all = CPU_COUNT(&allowed), place = 0;
    CPU_ZERO(&kept);
    for (int processor = 0; processor < CPU_SETSIZE; processor++) {
        if (!CPU_ISSET(processor, &allowed)) continue;
        if ((place + all - first % all) % all < count) CPU_SET(processor, &kept);
        place++;
    }
    if (sched_setaffinity(0, sizeof kept, &kept)) abort();
}

__attribute__((constructor)) static void begin(void) {
    const char *threads = getenv("REFUSED"), *processors = getenv("PROCESSORS");
    long first, count;
    make = (create *)dlsym(RTLD_NEXT, "pthread_create");
    if (!make) abort();
    if (threads && !strcmp(threads, "all")) refuses_all = 1;
    else if (threads) refused = atol(threads);
    if (!processors) return;
    if (sscanf(processors, "%ld %ld", &first, &count) != 2) abort();
    keep_on(first, count);
}

int pthread_create(pthread_t *thread, const pthread_attr_t *attributes, void *(*run)(void *), void *argument) {
    long number = __atomic_fetch_add(&made, 1, __ATOMIC_SEQ_CST);
    if (refuses_all || number == refused) return EAGAIN;
    return make(thread, attributes, run, argument);
}
