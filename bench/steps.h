/* The sampler with step records in C (document 02, A.8). The file that includes this one says by which functions it reckons modulo q, on operands
 * below q: add, sub, less_twice (v - 2vb for a bit b) and product (vb). It is built for each compiler apart: -DNAME=plain_steps_gcc -DIS_steps. */
#ifndef BENCH_STEPS_H
#define BENCH_STEPS_H

#include "checks.h"

#include <stdbool.h>

/* Where the next record goes, and its bit. */
typedef struct {
    uint8_t *at;
    size_t bit;
} trace;

static inline void put(trace *t, size_t round, size_t share, uint8_t kind, uint32_t value)
{
    uint8_t *at = t->at;
    at[0] = 'S';
    at[1] = 'T';
    at[2] = t->bit;
    at[3] = round;
    at[4] = share;
    at[5] = kind;
    at[6] = value;
    at[7] = value >> 8;
    t->at = at + 8;
}

static inline void put_row(trace *t, size_t round, uint8_t kind, const uint16_t *row, size_t count)
{
    for (size_t i = 0; i < count; i++)
        put(t, round, i + 1, kind, row[i]);
}

/* Step 2 for one share more: A becomes B and then C. */
static inline void add_share(trace *t, size_t j, uint32_t bit, uint32_t q, const uint16_t *words, uint16_t row[8])
{
    uint32_t sum = 0;
    put(t, j, j, 0, bit);
    for (size_t i = 0; i < j - 1; i++) {
        sum = add(sum, words[i], q);
        row[i] = sub(row[i], words[i], q);
    }
    row[j - 1] = sum;
    put_row(t, j, 1, row, j);
    for (size_t i = 0; i < j; i++) {
        put(t, j, i + 1, 2, product(row[i], bit, q));
        row[i] = less_twice(row[i], bit, q);
    }
    row[0] = add(row[0], bit, q);
    put_row(t, j, 3, row, j);
}

/* Steps 1 to 3: the row of a bit, from its n(n - 1) words. */
static inline void convert_bit(trace *t, const uint16_t *shares, size_t shift, size_t n, uint32_t q, const uint16_t *words, uint16_t row[8])
{
    row[0] = (shares[0] >> shift) & 1;
    put(t, 1, 1, 0, row[0]);
    for (size_t j = 2; j <= n; j++) {
        add_share(t, j, (shares[j - 1] >> shift) & 1, q, words, row);
        words += j - 1;
    }
    size_t pair = 1;
    for (size_t i = 0; i < n; i++)
        for (size_t m = i + 1; m < n; m++) {
            uint32_t r = *words++;
            row[i] = add(row[i], r, q);
            row[m] = sub(row[m], r, q);
            put(t, pair, i + 1, 4, row[i]);
            put(t, pair, m + 1, 4, row[m]);
            pair++;
        }
}

tp_answer NAME(size_t n, size_t k, uint16_t q, const uint16_t *x, size_t x_len, const uint16_t *y, size_t y_len, const uint16_t *words,
               size_t words_len, uint16_t *out, size_t out_len, uint16_t *work, size_t work_len, uint8_t *records, size_t records_len)
{
    tp_answer checked = check_all(n, k, q, 1, x, x_len, y, y_len, words, words_len, out_len, work_len);
    if (checked.code != 0)
        return checked;
    if (records_len < TP_STEP_BYTES(n, k))
        return answer(26, 0);
    trace t = {records, 0};
    uint16_t row[8];
    for (size_t i = 0; i < n; i++)
        work[i] = 0;
    for (; t.bit < 2 * k; t.bit++) {
        bool negative = t.bit >= k;
        convert_bit(&t, negative ? y : x, negative ? t.bit - k : t.bit, n, q, words + t.bit * n * (n - 1), row);
        for (size_t i = 0; i < n; i++)
            work[i] = negative ? sub(work[i], row[i], q) : add(work[i], row[i], q);
        put_row(&t, 0, 5, work, n);
    }
    for (size_t i = 0; i < n; i++) {
        out[i] = work[i];
        work[i] = 0;
    }
    return checked;
}

#endif
