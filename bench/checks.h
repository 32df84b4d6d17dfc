/* The checks of a polynomial in C (document 01, 'Questions put to a call'; document 02, A.1), and of a sample, which has an m of 1. */
#ifndef BENCH_CHECKS_H
#define BENCH_CHECKS_H

#include "tinplateau.h"

static inline tp_answer answer(uint32_t code, size_t value)
{
    return (tp_answer){.code = code, .value = value};
}

/* The position of the first share that is not below the limit, or the count. */
static inline size_t first_wide(const uint16_t *shares, size_t count, uint32_t limit)
{
    size_t i = 0;
    while (i < count && shares[i] < limit)
        i++;
    return i;
}

/* The position of the first word that is not below q, or the count. The search goes over the bits and, within a bit, over its words, as
 * document 01 has it and as the library does. In the library this costs 0.3 ns a word more than a pass over all words that
 * is never left early: there the compiler compares eight words at once, and in the search it does not. */
static inline size_t first_not_below(const uint16_t *words, size_t bits, size_t per, uint32_t q)
{
    size_t at = 0;
    for (size_t b = 0; b < bits; b++)
        for (size_t i = 0; i < per; i++) {
            if (words[at] >= q)
                return at;
            at++;
        }
    return at;
}

/* Code 0 and the number of words that the call uses, or the first refusal. */
static inline tp_answer check_all(size_t n, size_t k, uint16_t q, size_t m, const uint16_t *x, size_t x_len, const uint16_t *y, size_t y_len,
                                  const uint16_t *words, size_t words_len, size_t out_len, size_t work_len)
{
    if (n < 2 || n > 8)
        return answer(1, 0);
    if (k < 1 || k > 16)
        return answer(2, 0);
    if (q < 2 * k + 1)
        return answer(3, 0);
    if (m < 1 || m > 256)
        return answer(23, 0);
    if (x_len != m * n)
        return answer(4, 0);
    if (y_len != m * n)
        return answer(5, 0);
    size_t wide = first_wide(x, m * n, 1u << k);
    if (wide < m * n)
        return answer(6, wide);
    wide = first_wide(y, m * n, 1u << k);
    if (wide < m * n)
        return answer(7, wide);
    size_t used = m * 2 * k * n * (n - 1);
    if (words_len < used)
        return answer(8, 0);
    size_t unfit = first_not_below(words, m * 2 * k, n * (n - 1), q);
    if (unfit < used)
        return answer(9, unfit);
    if (out_len < m * n)
        return answer(10, 0);
    if (work_len < n)
        return answer(11, 0);
    return answer(0, used);
}

#endif
