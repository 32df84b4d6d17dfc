/* Plain C: a remainder for each reduction. */
#include <stddef.h>
#include <stdint.h>

static inline uint32_t add(uint32_t a, uint32_t b, uint32_t q)
{
    return (a + b) % q;
}

static inline uint32_t sub(uint32_t a, uint32_t b, uint32_t q)
{
    return (a + q - b) % q;
}

static inline uint32_t less_twice(uint32_t v, uint32_t b, uint32_t q)
{
    return (v + 2 * (q - v) * b) % q;
}

#ifdef IS_value
static inline void double_and_add(uint16_t totals[8], const uint16_t row[8], size_t n, uint32_t q)
{
    for (size_t i = 0; i < n; i++)
        totals[i] = (2u * totals[i] + row[i]) % q;
}

#include "value.h"
#elif defined IS_steps
static inline uint32_t product(uint32_t v, uint32_t b, uint32_t q)
{
    return v * b % q;
}

#include "steps.h"
#else
#include "sampler.h"
#endif
