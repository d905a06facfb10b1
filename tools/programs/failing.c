/* SPDX-License-Identifier: MIT */
/* Stands before the C library's allocations, reads and writes in a program that is run with LD_PRELOAD, and has them
 * fail from one on. FAILING says which, and how many are done before: m3 for three allocations, i3 for three reads of
 * standard input, f3 for three of other files; w3 for three bytes that standard output has room for, behind which
 * writes fail, and n3 for the same where they accept nothing. Such reads and writes are cut short. Of a database's
 * files p3 stands for three reads at a place, and s3 for three writes at a place, syncs and changes of a length.
 * FAILING_COUNT names a file of eight bytes, which then has the number of those that failed. */
#define _GNU_SOURCE
#include <errno.h>
#include <fcntl.h>
#include <stdatomic.h>
#include <stdint.h>
#include <stdlib.h>
#include <sys/mman.h>
#include <sys/syscall.h>
#include <unistd.h>

enum { READ_AT_MOST = 7, WRITTEN_AT_MOST = 2 };

void *__libc_malloc(size_t size);
void *__libc_calloc(size_t count, size_t size);
void *__libc_realloc(void *old, size_t size);

static char kind;
static _Atomic int64_t left;
static _Atomic uint64_t *failures;

/* Runs before the program begins; until then nothing fails. */
__attribute__((constructor)) static void begin(void) {
    const char *asked = getenv("FAILING"), *count = getenv("FAILING_COUNT");
    if (!asked || !count) return;
    int file = open(count, O_RDWR);
    failures = mmap(NULL, sizeof *failures, PROT_READ | PROT_WRITE, MAP_SHARED, file, 0);
    if (failures == MAP_FAILED) abort();
    close(file);
    left = strtoll(asked + 1, NULL, 10);
    kind = asked[0];
}

/* Whether none is left; else one is taken. */
static int is_refused(void) {
    if (atomic_fetch_sub(&left, 1) > 0) return 0;
    atomic_fetch_add(failures, 1);
    return 1;
}

static int has_no_memory(void) {
    if (kind != 'm' || !is_refused()) return 0;
    errno = ENOMEM;
    return 1;
}

void *malloc(size_t size) {
    return has_no_memory() ? NULL : __libc_malloc(size);
}

/* The C library itself calls it, for a thread. */
void *calloc(size_t count, size_t size) {
    return has_no_memory() ? NULL : __libc_calloc(count, size);
}

void *realloc(void *old, size_t size) {
    return has_no_memory() ? NULL : __libc_realloc(old, size);
}

ssize_t read(int file, void *into, size_t size) {
    if (kind != (file == STDIN_FILENO ? 'i' : 'f')) return syscall(SYS_read, file, into, size);
    if (is_refused()) {
        errno = EIO;
        return -1;
    }
    return syscall(SYS_read, file, into, size < READ_AT_MOST ? size : READ_AT_MOST);
}

/* What is written to standard output comes from one thread. */
ssize_t write(int file, const void *from, size_t size) {
    if (file != STDOUT_FILENO || (kind != 'w' && kind != 'n')) return syscall(SYS_write, file, from, size);
    size_t room = left < WRITTEN_AT_MOST ? (size_t)left : WRITTEN_AT_MOST;
    if (room == 0 && size > 0) {
        atomic_fetch_add(failures, 1);
        errno = ENOSPC;
        return kind == 'n' ? 0 : -1;
    }
    ssize_t written = syscall(SYS_write, file, from, size < room ? size : room);
    if (written > 0) left -= written;
    return written;
}

/* Whether a call of this kind fails. */
static int fails(char asked) {
    if (kind != asked || !is_refused()) return 0;
    errno = EIO;
    return 1;
}

ssize_t pread(int file, void *into, size_t size, off_t at) {
    return fails('p') ? -1 : syscall(SYS_pread64, file, into, size, at);
}

ssize_t pwrite(int file, const void *from, size_t size, off_t at) {
    return fails('s') ? -1 : syscall(SYS_pwrite64, file, from, size, at);
}

int ftruncate(int file, off_t size) {
    return fails('s') ? -1 : (int)syscall(SYS_ftruncate, file, size);
}

int fsync(int file) {
    return fails('s') ? -1 : (int)syscall(SYS_fsync, file);
}

int fdatasync(int file) {
    return fails('s') ? -1 : (int)syscall(SYS_fdatasync, file);
}
