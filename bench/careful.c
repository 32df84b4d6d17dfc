/* Careful C: a conditional subtraction for each reduction, written without division or branch. */
#include <stddef.h>
#include <stdint.h>

/* s mod q for s below 2q. */
static inline uint32_t reduce(uint32_t s, uint32_t q)
{
    return s - q * (s >= q);
}

static inline uint32_t add(uint32_t a, uint32_t b, uint32_t q)
{
    return reduce(a + b, q);
}

static inline uint32_t sub(uint32_t a, uint32_t b, uint32_t q)
{
    return reduce(a + q - b, q);
}

static inline uint32_t less_twice(uint32_t v, uint32_t b, uint32_t q)
{
    return reduce(v + b * q - 2 * b * v, q);
}

#ifdef IS_value
/* All eight, which the compilers do at once. */
static inline void double_and_add(uint16_t totals[8], const uint16_t row[8], size_t n, uint32_t q)
{
    (void)n;
    for (size_t i = 0; i < 8; i++)
        totals[i] = add(add(totals[i], totals[i], q), row[i], q);
}

#include "value.h"
#elif defined IS_steps
/* vb is below q. */
static inline uint32_t product(uint32_t v, uint32_t b, uint32_t q)
{
    (void)q;
    return v * b;
}

#include "steps.h"
#else
#include "sampler.h"
#endif
