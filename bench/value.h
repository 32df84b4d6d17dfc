/* The conversion of a string in C (document 02, A.7). It is built for each compiler apart: -DNAME=careful_value_gcc -DIS_value. */
#ifndef BENCH_VALUE_H
#define BENCH_VALUE_H

#include "bit.h"
#include "checks.h"

/* Code 0 and the number of words that the call uses, or the first refusal. */
static inline tp_answer check_value(size_t n, size_t k, uint16_t q, const uint16_t *shares, size_t shares_len, const uint16_t *words,
                                    size_t words_len, size_t out_len)
{
    if (n < 2 || n > 8)
        return answer(1, 0);
    if (k < 1 || k > 16)
        return answer(2, 0);
    if (q < 3)
        return answer(3, 0);
    if (shares_len != n)
        return answer(4, 0);
    size_t wide = first_wide(shares, n, 1u << k);
    if (wide < n)
        return answer(6, wide);
    size_t used = k * n * (n - 1);
    if (words_len < used)
        return answer(8, 0);
    size_t unfit = first_not_below(words, k, n * (n - 1), q);
    if (unfit < used)
        return answer(9, unfit);
    if (out_len < n)
        return answer(10, 0);
    return answer(0, used);
}

/* From the highest bit down: the totals are doubled, and the row of the bit is added. With constant indices totals can stay in registers. */
tp_answer NAME(size_t n, size_t k, uint16_t q, const uint16_t *shares, size_t shares_len, const uint16_t *words, size_t words_len, uint16_t *out,
               size_t out_len)
{
    tp_answer checked = check_value(n, k, q, shares, shares_len, words, words_len, out_len);
    if (checked.code != 0)
        return checked;
    uint16_t row[8] = {0}, totals[8] = {0};
    for (size_t t = k; t-- > 0;) {
        convert_bit(shares, t, n, q, words + t * n * (n - 1), row);
        double_and_add(totals, row, n, q);
    }
    for (size_t i = 0; i < 8; i++)
        if (i < n)
            out[i] = totals[i];
    return checked;
}

#endif
