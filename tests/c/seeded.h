/* Test input from a seed. These are not random numbers. */
#ifndef SEEDED_H
#define SEEDED_H

#include <stdint.h>

/* The next number below the bound, which is not 0: a linear congruential generator, Knuth's MMIX constants. */
static inline uint16_t seeded_below(uint64_t *state, uint32_t bound)
{
    *state = *state * 6364136223846793005u + 1442695040888963407u;
    return (uint16_t)((*state >> 33) % bound);
}

#endif
