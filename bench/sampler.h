/* The sampler of documents 01 and 02 in C, with words from the front of the list. It is built for each compiler and call apart:
 * -DNAME=careful_sample_gcc, or -DNAME=careful_polynomial_gcc -DIS_polynomial. */
#ifndef BENCH_SAMPLER_H
#define BENCH_SAMPLER_H

#include "bit.h"
#include "checks.h"

#include <stdbool.h>

/* The rows of the k bits of a string, each added to the totals or taken off. */
static inline void add_string(const uint16_t *shares, size_t n, size_t k, uint32_t q, const uint16_t *words, bool negative, uint16_t *totals)
{
    uint16_t row[8];
    for (size_t t = 0; t < k; t++) {
        convert_bit(shares, t, n, q, words + t * n * (n - 1), row);
        for (size_t i = 0; i < n; i++)
            totals[i] = negative ? sub(totals[i], row[i], q) : add(totals[i], row[i], q);
    }
}

/* A sample's m is a constant, so that the loop over the coefficients leaves no trace in it. A sample is a function that NAME calls, and a polynomial
 * is NAME itself. gcc makes other code of each the other way round; both keep the form in which they have always been measured. */
#ifdef IS_polynomial
#define CALL tp_answer NAME
#define COEFFICIENTS size_t m,
#else
#define CALL static inline tp_answer sample
#define COEFFICIENTS
enum { m = 1 };
#endif

CALL(size_t n, size_t k, uint16_t q, COEFFICIENTS const uint16_t *x, size_t x_len, const uint16_t *y, size_t y_len, const uint16_t *words,
     size_t words_len, uint16_t *out, size_t out_len, uint16_t *work, size_t work_len)
{
    tp_answer checked = check_all(n, k, q, m, x, x_len, y, y_len, words, words_len, out_len, work_len);
    if (checked.code != 0)
        return checked;
    for (size_t i = 0; i < 8; i++)
        if (i < n)
            work[i] = 0;
    for (size_t c = 0; c < m; c++) {
        add_string(x + c * n, n, k, q, words + c * 2 * k * n * (n - 1), false, work);
        add_string(y + c * n, n, k, q, words + (c * 2 + 1) * k * n * (n - 1), true, work);
        for (size_t i = 0; i < n; i++) {
            out[c * n + i] = work[i];
            work[i] = 0;
        }
    }
    return checked;
}

#ifndef IS_polynomial
tp_answer NAME(size_t n, size_t k, uint16_t q, const uint16_t *x, size_t x_len, const uint16_t *y, size_t y_len, const uint16_t *words,
               size_t words_len, uint16_t *out, size_t out_len, uint16_t *work, size_t work_len)
{
    return sample(n, k, q, x, x_len, y, y_len, words, words_len, out, out_len, work, work_len);
}
#endif

#endif
