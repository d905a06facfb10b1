/* A clock that runs at another rate, for tests: LD_PRELOAD=clock.so ARGUS_CLOCK=3/1 PROGRAM. For the program, monotonic
   time passes three times as fast, and so do its waits; ARGUS_CLOCK=1/2 is a clock that runs half as fast. The time of
   day jumps by an hour, back and forth, every second. Linux alone. */
#define _GNU_SOURCE
#include <dlfcn.h>
#include <errno.h>
#include <linux/futex.h>
#include <poll.h>
#include <stdint.h>
#include <stdio.h>
#include <stdlib.h>
#include <sys/syscall.h>
#include <sys/time.h>
#include <time.h>
#include <unistd.h>

#define SECOND 1000000000LL
#define HOUR 3600

static int64_t times = 1, parts = 1;

__attribute__((constructor)) static void read_rate(void) {
    long long read_times, read_parts;
    const char *rate = getenv("ARGUS_CLOCK");
    if (rate && sscanf(rate, "%lld/%lld", &read_times, &read_parts) == 2 && read_times > 0 &&
        read_parts > 0) {
        times = read_times;
        parts = read_parts;
    }
}

static struct timespec scaled(struct timespec it, int64_t by, int64_t of) {
    __int128 nanoseconds = (__int128)it.tv_sec * SECOND + it.tv_nsec;
    nanoseconds = nanoseconds * by / of;
    return (struct timespec){(time_t)(nanoseconds / SECOND), (long)(nanoseconds % SECOND)};
}

static struct timespec as_told(struct timespec real) {
    return scaled(real, times, parts);
}

static struct timespec as_it_is(struct timespec told) {
    return scaled(told, parts, times);
}

static long jump(time_t second) {
    return second % 2 ? HOUR : -HOUR;
}

static int is_monotonic(clockid_t clock) {
    return clock == CLOCK_MONOTONIC || clock == CLOCK_MONOTONIC_RAW ||
           clock == CLOCK_MONOTONIC_COARSE || clock == CLOCK_BOOTTIME;
}

int clock_gettime(clockid_t clock, struct timespec *time) {
    int failed = (int)syscall(SYS_clock_gettime, (long)clock, (long)time, 0, 0, 0, 0);
    if (failed) return failed;
    if (is_monotonic(clock)) *time = as_told(*time);
    if (clock == CLOCK_REALTIME) time->tv_sec += jump(time->tv_sec);
    return 0;
}

int gettimeofday(struct timeval *time, void *zone) {
    struct timespec it;
    (void)zone;
    clock_gettime(CLOCK_REALTIME, &it);
    *time = (struct timeval){it.tv_sec, it.tv_nsec / 1000};
    return 0;
}

time_t time(time_t *place) {
    struct timespec it;
    clock_gettime(CLOCK_REALTIME, &it);
    if (place) *place = it.tv_sec;
    return it.tv_sec;
}

/* What is left of a wait that a signal ends isn't scaled back: who waits on then waits too long or too short. */
int clock_nanosleep(clockid_t clock, int flags, const struct timespec *time,
                    struct timespec *left) {
    struct timespec real = as_it_is(*time);
    long failed = syscall(SYS_clock_nanosleep, (long)clock, (long)flags, (long)&real,
                          (long)left, 0, 0);
    return failed ? errno : 0;
}

int nanosleep(const struct timespec *time, struct timespec *left) {
    struct timespec real = as_it_is(*time);
    return (int)syscall(SYS_nanosleep, (long)&real, (long)left, 0, 0, 0, 0);
}

int poll(struct pollfd *files, nfds_t count, int timeout) {
    struct timespec told = {timeout / 1000, timeout % 1000 * 1000000L}, real = as_it_is(told);
    long limit = timeout < 0 ? 0 : (long)&real;
    return (int)syscall(SYS_ppoll, (long)files, (long)count, limit, 0, 0, 0);
}

/* A wait for a futex: std's waits with a limit are by this call, until a monotonic time. */
long syscall(long number, ...) {
    static long (*real_call)(long, ...);
    struct timespec real;
    long words[6];
    __builtin_va_list list;
    __builtin_va_start(list, number);
    for (int i = 0; i < 6; i++) words[i] = __builtin_va_arg(list, long);
    __builtin_va_end(list);
    if (!real_call) *(void **)&real_call = dlsym(RTLD_NEXT, "syscall");
    if (number == SYS_futex && words[3] && !(words[1] & FUTEX_CLOCK_REALTIME)) {
        int call = (int)words[1] & FUTEX_CMD_MASK;
        if (call == FUTEX_WAIT || call == FUTEX_WAIT_BITSET) {
            real = as_it_is(*(const struct timespec *)words[3]);
            words[3] = (long)&real;
        }
    }
    return real_call(number, words[0], words[1], words[2], words[3], words[4], words[5]);
}
