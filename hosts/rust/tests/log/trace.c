/* Notes what a program does with its files, for tests: LD_PRELOAD=trace.so ARGUS_TRACE=FILE PROGRAM. Each write, sync,
   change of a size, link and removal is a record at the end of that file, once it is done: a line `KIND AT SIZE`, the
   path, a line feed, and SIZE bytes. A link's bytes are its second path. Linux alone. */
#define _GNU_SOURCE
#include <fcntl.h>
#include <limits.h>
#include <pthread.h>
#include <stdio.h>
#include <stdlib.h>
#include <string.h>
#include <sys/syscall.h>
#include <unistd.h>

static pthread_mutex_t lock = PTHREAD_MUTEX_INITIALIZER;
static int trace = -1;

__attribute__((constructor)) static void open_trace(void) {
    const char *name = getenv("ARGUS_TRACE");
    if (name) trace = open(name, O_WRONLY | O_APPEND | O_CREAT | O_CLOEXEC, 0644);
}

static void put(const void *bytes, size_t size) {
    if (syscall(SYS_write, trace, bytes, size) != (long)size) abort();
}

static void note(const char *kind, const char *path, long at, const void *bytes, size_t size) {
    char head[PATH_MAX + 64];
    int length = snprintf(head, sizeof head, "%s %ld %zu\n%s\n", kind, at, size, path);
    if (trace < 0) return;
    put(head, (size_t)length);
    put(bytes, size);
}

static void note_file(const char *kind, int file, long at, const void *bytes, size_t size) {
    char link[32], path[PATH_MAX];
    snprintf(link, sizeof link, "/proc/self/fd/%d", file);
    ssize_t length = readlink(link, path, sizeof path - 1);
    if (length < 0) return;
    path[length] = 0;
    note(kind, path, at, bytes, size);
}

/* The order of the records is that of the calls. */
#define NOTED(call, noted)             \
    pthread_mutex_lock(&lock);         \
    long done = call;                  \
    if (done >= 0) noted;              \
    pthread_mutex_unlock(&lock);       \
    return done

ssize_t pwrite64(int file, const void *bytes, size_t size, off64_t at) {
    NOTED(syscall(SYS_pwrite64, file, bytes, size, at), note_file("write", file, at, bytes, (size_t)done));
}

ssize_t pwrite(int file, const void *bytes, size_t size, off_t at) {
    return pwrite64(file, bytes, size, at);
}

ssize_t write(int file, const void *bytes, size_t size) {
    long at = lseek(file, 0, SEEK_CUR);
    NOTED(syscall(SYS_write, file, bytes, size), note_file(file == 1 ? "said" : "write", file, at, bytes, (size_t)done));
}

int ftruncate64(int file, off64_t size) {
    NOTED(syscall(SYS_ftruncate, file, size), note_file("size", file, size, "", 0));
}

int ftruncate(int file, off_t size) {
    return ftruncate64(file, size);
}

int fsync(int file) {
    NOTED(syscall(SYS_fsync, file), note_file("sync", file, 0, "", 0));
}

int fdatasync(int file) {
    NOTED(syscall(SYS_fdatasync, file), note_file("sync", file, 0, "", 0));
}

int unlink(const char *path) {
    NOTED(syscall(SYS_unlinkat, AT_FDCWD, path, 0), note("unlink", path, 0, "", 0));
}

int link(const char *from, const char *to) {
    NOTED(syscall(SYS_linkat, AT_FDCWD, from, AT_FDCWD, to, 0), note("link", from, 0, to, strlen(to)));
}

int linkat(int from_folder, const char *from, int to_folder, const char *to, int how) {
    NOTED(syscall(SYS_linkat, from_folder, from, to_folder, to, how), note("link", from, 0, to, strlen(to)));
}
