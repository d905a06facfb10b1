/* Pseudo-random numbers, the same in each run. */
#ifndef DRAWS_H
#define DRAWS_H

#include <stdint.h>

/* A linear congruential generator, of which the upper 31 bits are used. Its factor is Knuth's for
 * 64-bit words. */
static inline uint32_t draws_below(uint64_t *state, uint32_t count) {
    *state = *state * 6364136223846793005u + 1442695040888963407u;
    return (uint32_t)((*state >> 33) % count);
}

#endif
