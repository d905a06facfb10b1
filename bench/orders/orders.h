/* The orders that all programs here carry out, by number: each takes two of 1,000 seats over from earlier ones. */
#ifndef ORDERS_H
#define ORDERS_H

#include <stdint.h>
#include <stdio.h>
#include <stdlib.h>
#include <time.h>

enum { SEATS = 1000, EACH = 2 };

/* One of the seats of an order, of which `at` is 0 or 1. */
static inline uint32_t seat_of(uint32_t order, uint32_t at) {
    uint32_t first = order * 7919 % SEATS;
    return at == 0 ? first : (first + 1 + order % (SEATS - 1)) % SEATS;
}

/* What all holders come to, each times the place of its seat: the same for each program. */
static inline int64_t weighed(int64_t sum, uint32_t seat, int64_t holder) {
    return sum + holder * (seat + 1);
}

static inline double processor_seconds(void) {
    struct timespec time;
    clock_gettime(CLOCK_PROCESS_CPUTIME_ID, &time);
    return (double)time.tv_sec + (double)time.tv_nsec / 1e9;
}

/* The number of orders that the command line names. */
static inline uint32_t orders_named(int count, char **words) {
    long orders = count == 2 ? strtol(words[1], NULL, 10) : 0;
    if (orders < 1 || orders > 100000000) {
        fprintf(stderr, "usage: %s ORDERS\n", words[0]);
        exit(2);
    }
    return (uint32_t)orders;
}

#endif
