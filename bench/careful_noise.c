/* Careful C: k bytes of a string hold four coefficients. They are read once, and each share is a shift and a mask. */
#include <stddef.h>
#include <stdint.h>

/* k bytes, the first lowest. */
static inline uint32_t group(const uint8_t *bytes, size_t k)
{
    return bytes[0] | (uint32_t)bytes[1] << 8 | (k == 3 ? (uint32_t)bytes[2] << 16 : 0);
}

/* One string, to every nth word of x and y. */
static inline void split_string(size_t n, size_t k, const uint8_t *string, uint16_t *restrict x, uint16_t *restrict y)
{
    uint32_t mask = (1u << k) - 1;
    for (size_t g = 0; g < 64; g++) {
        uint32_t bits = group(string + g * k, k);
        for (size_t t = 0; t < 4; t++) {
            *x = bits >> 2 * t * k & mask;
            *y = bits >> (2 * t * k + k) & mask;
            x += n;
            y += n;
        }
    }
}

/* Each k is a constant in its own copy of the loop. */
static inline void split(size_t n, size_t k, const uint8_t *bytes, uint16_t *x, uint16_t *y)
{
    for (size_t i = 0; i < n; i++)
        if (k == 2)
            split_string(n, 2, bytes + i * 128, x + i, y + i);
        else
            split_string(n, 3, bytes + i * 192, x + i, y + i);
}

#include "noise.h"
