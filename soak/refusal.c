// Refuses one allocation of a program: the one of the number REFUSED, counted from 0. It is loaded in front of the C library,
// and writes a byte to the descriptor TOLD where it met that allocation.
#include <errno.h>
#include <stdlib.h>
#include <unistd.h>

extern void *__libc_malloc(size_t size);
extern void *__libc_calloc(size_t count, size_t size);
extern void *__libc_realloc(void *old, size_t size);

static long made;

static int refuses(void) {
    long number = __atomic_fetch_add(&made, 1, __ATOMIC_SEQ_CST);
    const char *refused = getenv("REFUSED");
    const char *told = getenv("TOLD");
    if (!refused || !told || number != atol(refused)) return 0;
    if (write(atoi(told), "!", 1) != 1) abort();
    errno = ENOMEM;
    return 1;
}

void *malloc(size_t size) { return refuses() ? NULL : __libc_malloc(size); }

void *calloc(size_t count, size_t size) { return refuses() ? NULL : __libc_calloc(count, size); }

void *realloc(void *old, size_t size) { return refuses() ? NULL : __libc_realloc(old, size); }
