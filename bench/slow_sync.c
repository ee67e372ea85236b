// Lets each sync of a file take so many microseconds as SLOW_SYNC says, in place of what the disk takes. It is loaded in front of the
// C library.
#include <stdlib.h>
#include <time.h>

static int wait_long(void) {
    const char *word = getenv("SLOW_SYNC");
    long microseconds = word ? atol(word) : 0;
    struct timespec time = {microseconds / 1000000, microseconds % 1000000 * 1000};
    return nanosleep(&time, NULL);
}

int fsync(int file) {
    (void)file;
    return wait_long();
}

int fdatasync(int file) {
    (void)file;
    return wait_long();
}
