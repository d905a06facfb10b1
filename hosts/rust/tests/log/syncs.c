/* A sync that fails, for tests: LD_PRELOAD=syncs.so ARGUS_SYNC=7 PROGRAM. The program's seventh sync does nothing, and
   returns that the disk has an error; later ones are done. Linux alone. */
#define _GNU_SOURCE
#include <errno.h>
#include <stdatomic.h>
#include <stdlib.h>
#include <sys/syscall.h>
#include <unistd.h>

static atomic_long left;

__attribute__((constructor)) static void read_count(void) {
    const char *count = getenv("ARGUS_SYNC");
    left = count ? atol(count) : 0;
}

static int synced(long call, int file) {
    if (atomic_fetch_sub(&left, 1) == 1) {
        errno = EIO;
        return -1;
    }
    return (int)syscall(call, file);
}

int fsync(int file) {
    return synced(SYS_fsync, file);
}

int fdatasync(int file) {
    return synced(SYS_fdatasync, file);
}
