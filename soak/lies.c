// Makes one read of a program lie: it gives one byte other than the file holds, or zeros for a whole sector. It is loaded in
// front of the C library. Reads of the files `redo.log` and `redo.data` are numbered together, from 0, whichever thread makes
// them. LIES holds three numbers: that of the read, a place in its buffer, and what the byte there is changed by, bit by bit;
// where that is 0 the sector of the place is zeros. A byte past the file's end comes after zeros. READS names the file that
// takes a line for each read: its device, where it is in the file, how many bytes it asks for, and whether it lied.
#define _GNU_SOURCE
#include <errno.h>
#include <fcntl.h>
#include <pthread.h>
#include <stdio.h>
#include <stdlib.h>
#include <string.h>
#include <sys/syscall.h>
#include <unistd.h>

enum { FIRST_FREE = 500, SECTOR = 512 };

static int reads = -1;
static long number = -1, place, change, made;
static pthread_mutex_t turn = PTHREAD_MUTEX_INITIALIZER;

__attribute__((constructor)) static void begin(void) {
    const char *path = getenv("READS"), *lies = getenv("LIES");
    if (!path) return;
    // the program's own files get the numbers that they have without this
    int opened = syscall(SYS_openat, AT_FDCWD, path, O_WRONLY | O_APPEND | O_CLOEXEC, 0);
    if (opened < 0) abort();
    reads = syscall(SYS_fcntl, opened, F_DUPFD_CLOEXEC, FIRST_FREE);
    syscall(SYS_close, opened);
    if (lies && sscanf(lies, "%ld %ld %ld", &number, &place, &change) != 3) abort();
}

// 0 is the log device, 1 the data device, and -1 another file.
static int device_of(int file) {
    char link[64], path[4096];
    if (reads < 0) return -1;
    snprintf(link, sizeof link, "/proc/self/fd/%d", file);
    long length = syscall(SYS_readlink, link, path, sizeof path - 1);
    if (length < 0) return -1;
    path[length] = 0;
    const char *name = strrchr(path, '/');
    return !name                           ? -1
           : !strcmp(name + 1, "redo.log")  ? 0
           : !strcmp(name + 1, "redo.data") ? 1
                                            : -1;
}

// Fills the sector with zeros in which the place is, as far as it was read, and says whether that changed a byte.
static int clear(char *bytes, ssize_t length, off_t at) {
    int changed = 0;
    long first = place - (at + place) % SECTOR;
    for (long i = first < 0 ? 0 : first; i < length && i < first + SECTOR; i++) {
        changed |= bytes[i] != 0;
        bytes[i] = 0;
    }
    return changed;
}

// Changes what was read, and how much that is, and says whether it lies then.
static int lie(char *bytes, size_t asked, ssize_t *length, off_t at) {
    if (*length < 0 || place < 0 || (size_t)place >= asked) return 0;
    if (!change) return clear(bytes, *length, at);
    if (*length <= place) {
        memset(bytes + *length, 0, place + 1 - *length);
        *length = place + 1;
    }
    bytes[place] ^= change;
    return 1;
}

ssize_t pread(int file, void *bytes, size_t asked, off_t at) {
    int device = device_of(file);
    if (device < 0) return syscall(SYS_pread64, file, bytes, asked, at);
    pthread_mutex_lock(&turn);
    ssize_t length = syscall(SYS_pread64, file, bytes, asked, at);
    int error = errno;
    int lied = made++ == number && lie(bytes, asked, &length, at);
    char line[128];
    int told = snprintf(line, sizeof line, "%d %ld %zu %d\n", device, (long)at, asked, lied);
    if (syscall(SYS_write, reads, line, told) != told) abort();
    pthread_mutex_unlock(&turn);
    errno = error;
    return length;
}

ssize_t pread64(int file, void *bytes, size_t asked, off_t at) { return pread(file, bytes, asked, at); }
