/* The conversion of a bit in C, for sampler.h and value.h. The file that includes one of them says by which functions it reckons modulo q, on
 * operands below q: add, sub and less_twice (v - 2vb for a bit b). For value.h it also has double_and_add, of n totals and a row. */
#ifndef BENCH_BIT_H
#define BENCH_BIT_H

#include <stddef.h>
#include <stdint.h>

/* Steps 1 to 3: the row of bit t, from its n(n - 1) words. */
static inline void convert_bit(const uint16_t *shares, size_t t, size_t n, uint32_t q, const uint16_t *words, uint16_t row[8])
{
    row[0] = (shares[0] >> t) & 1;
    for (size_t j = 1; j < n; j++) {
        uint32_t bit = (shares[j] >> t) & 1;
        uint32_t sum = 0;
        for (size_t i = 0; i < j; i++) {
            uint32_t r = *words++;
            sum = add(sum, r, q);
            row[i] = less_twice(sub(row[i], r, q), bit, q);
        }
        row[j] = less_twice(sum, bit, q);
        row[0] = add(row[0], bit, q);
    }
    for (size_t i = 0; i < n; i++)
        for (size_t m = i + 1; m < n; m++) {
            uint32_t r = *words++;
            row[i] = add(row[i], r, q);
            row[m] = sub(row[m], r, q);
        }
}

#endif
