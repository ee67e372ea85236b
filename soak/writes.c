// Tells of the calls that a program makes on the files `redo.log`, `redo.data` and `redo.archive`, or `bank.log` and
// `bank.data`: each read or write with its place, each write with its bytes, each good sync, in their order, whichever thread
// makes them: those of one device follow each other, and those of all run side by side as the program has them. It is loaded in
// front of the C library. EVENTS names the file that takes them. FAILS may hold a device (0, 1 or 2), a number and 0 or 1: that
// write or sync of the device, counted from 0, then fails, and such a write is made all the same where the last number is 1.
// KILLS may hold a device and two numbers: of that write of the device, counted from 0, so many of the first sectors are made,
// and then the process is killed.
#define _GNU_SOURCE
#include <errno.h>
#include <fcntl.h>
#include <pthread.h>
#include <signal.h>
#include <stdint.h>
#include <stdio.h>
#include <stdlib.h>
#include <string.h>
#include <sys/syscall.h>
#include <sys/uio.h>
#include <unistd.h>

enum { UNKNOWN, OTHER, LOG, DATA, ARCHIVE };
enum { DEVICES = 3, FILES = 1024, FIRST_FREE = 500, SECTOR = 512 };

struct event {
    uint8_t kind, device, zeros, unused[5];
    uint64_t at, length;
};

static uint8_t names[FILES];
static int events = -1;
static long fails_device = -1, fails_number, fails_is_made, changes[DEVICES];
static long kills_device = -1, kills_number, kills_sectors, writes[DEVICES];
// a lock for each device: an event is told before the next call of its device, and no later than the call returns
static pthread_mutex_t turns[DEVICES] = {PTHREAD_MUTEX_INITIALIZER, PTHREAD_MUTEX_INITIALIZER, PTHREAD_MUTEX_INITIALIZER};

__attribute__((constructor)) static void begin(void) {
    const char *path = getenv("EVENTS"), *fails = getenv("FAILS"), *kills = getenv("KILLS");
    if (!path) return;
    // the program's own files get the numbers that they have without this
    int opened = syscall(SYS_openat, AT_FDCWD, path, O_WRONLY | O_APPEND | O_CLOEXEC, 0);
    if (opened < 0) abort();
    events = syscall(SYS_fcntl, opened, F_DUPFD_CLOEXEC, FIRST_FREE);
    syscall(SYS_close, opened);
    if (fails && sscanf(fails, "%ld %ld %ld", &fails_device, &fails_number, &fails_is_made) != 3) abort();
    if (kills && sscanf(kills, "%ld %ld %ld", &kills_device, &kills_number, &kills_sectors) != 3) abort();
}

static void set_name(int file, int name) { __atomic_store_n(&names[file], name, __ATOMIC_RELAXED); }

static int name_of(int file) {
    char link[64], path[4096];
    if (events < 0 || file < 0 || file >= FILES) return OTHER;
    int known = __atomic_load_n(&names[file], __ATOMIC_RELAXED);
    if (known != UNKNOWN) return known;
    snprintf(link, sizeof link, "/proc/self/fd/%d", file);
    long length = syscall(SYS_readlink, link, path, sizeof path - 1);
    if (length < 0) return OTHER;
    path[length] = 0;
    const char *name = strrchr(path, '/');
    int found = !name                                                           ? OTHER
                : !strcmp(name + 1, "redo.log") || !strcmp(name + 1, "bank.log")   ? LOG
                : !strcmp(name + 1, "redo.data") || !strcmp(name + 1, "bank.data") ? DATA
                : !strcmp(name + 1, "redo.archive")                                ? ARCHIVE
                                                                                   : OTHER;
    set_name(file, found);
    return found;
}

static int are_zeros(const char *bytes, size_t length) {
    return length > 0 && bytes[0] == 0 && !memcmp(bytes, bytes + 1, length - 1);
}

static void tell(char kind, int name, uint64_t at, const void *bytes, size_t length) {
    int zeros = are_zeros(bytes, length);
    struct event event = {.kind = kind, .device = name - LOG, .zeros = zeros, .at = at, .length = length};
    struct iovec parts[2] = {{&event, sizeof event}, {(void *)bytes, zeros ? 0 : length}};
    long whole = parts[0].iov_len + parts[1].iov_len;
    if (syscall(SYS_writev, events, parts, 2) != whole) abort();
}

static void write_and_die(int name, int file, const void *bytes, size_t length, off_t at) {
    size_t part = (size_t)kills_sectors * SECTOR < length ? (size_t)kills_sectors * SECTOR : length;
    ssize_t written = part ? syscall(SYS_pwrite64, file, bytes, part, at) : 0;
    if (written > 0) tell('w', name, at, bytes, written);
    for (;;) kill(getpid(), SIGKILL);
}

// Whether the next write or sync of the device is to fail.
static int is_failing(int name) {
    return name - LOG == fails_device && changes[name - LOG]++ == fails_number;
}

ssize_t pread(int file, void *bytes, size_t length, off_t at) {
    int name = name_of(file);
    if (name == OTHER) return syscall(SYS_pread64, file, bytes, length, at);
    pthread_mutex_lock(&turns[name - LOG]);
    tell('c', name, at, "", 0);
    ssize_t read = syscall(SYS_pread64, file, bytes, length, at);
    pthread_mutex_unlock(&turns[name - LOG]);
    return read;
}

ssize_t pread64(int file, void *bytes, size_t length, off_t at) { return pread(file, bytes, length, at); }

ssize_t pwrite(int file, const void *bytes, size_t length, off_t at) {
    int name = name_of(file);
    if (name == OTHER) return syscall(SYS_pwrite64, file, bytes, length, at);
    pthread_mutex_lock(&turns[name - LOG]);
    tell('c', name, at, "", 0);
    if (name - LOG == kills_device && writes[name - LOG]++ == kills_number) write_and_die(name, file, bytes, length, at);
    int fails = is_failing(name);
    ssize_t written = fails && !fails_is_made ? 0 : syscall(SYS_pwrite64, file, bytes, length, at);
    int error = errno;
    if (written > 0) tell('w', name, at, bytes, written);
    pthread_mutex_unlock(&turns[name - LOG]);
    errno = fails ? EIO : error;
    return fails ? -1 : written;
}

ssize_t pwrite64(int file, const void *bytes, size_t length, off_t at) { return pwrite(file, bytes, length, at); }

static int sync_by(long call, int file) {
    int name = name_of(file);
    if (name == OTHER) return syscall(call, file);
    pthread_mutex_lock(&turns[name - LOG]);
    int fails = is_failing(name);
    int answer = fails ? -1 : syscall(call, file);
    int error = errno;
    if (answer == 0) tell('f', name, 0, "", 0);
    pthread_mutex_unlock(&turns[name - LOG]);
    errno = fails ? EIO : error;
    return answer;
}

int fsync(int file) { return sync_by(SYS_fsync, file); }

int fdatasync(int file) { return sync_by(SYS_fdatasync, file); }

int close(int file) {
    if (file >= 0 && file < FILES) set_name(file, UNKNOWN);
    return syscall(SYS_close, file);
}
