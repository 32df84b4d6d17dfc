/* Plain C: each share of each coefficient bit by bit, as FIPS 203 has it. */
#include <stddef.h>
#include <stdint.h>

/* BytesToBits: the lowest bit of each byte first. */
static inline uint16_t bit(const uint8_t *string, size_t at)
{
    return (string[at / 8] >> at % 8) & 1;
}

/* The k bits from a place on, the first lowest. */
static inline uint16_t bits_from(const uint8_t *string, size_t at, size_t k)
{
    uint16_t bits = 0;
    for (size_t j = 0; j < k; j++)
        bits |= bit(string, at + j) << j;
    return bits;
}

static inline void split(size_t n, size_t k, const uint8_t *bytes, uint16_t *x, uint16_t *y)
{
    for (size_t t = 0; t < 256; t++)
        for (size_t i = 0; i < n; i++) {
            const uint8_t *string = bytes + i * 64 * k;
            x[t * n + i] = bits_from(string, 2 * t * k, k);
            y[t * n + i] = bits_from(string, 2 * t * k + k, k);
        }
}

#include "noise.h"
