/* The split of noise in C (document 02, A.5). The file that includes this one says how the strings are split: split, which is given the k of the
 * set. It is built for each compiler apart: -DNAME=careful_noise_gcc. */
#ifndef BENCH_NOISE_H
#define BENCH_NOISE_H

#include "checks.h"

tp_answer NAME(size_t n, size_t set, const uint8_t *bytes, size_t bytes_len, uint16_t *x, size_t x_len, uint16_t *y, size_t y_len)
{
    size_t k = set + 1;
    if (n < 2 || n > 8)
        return answer(1, 0);
    if (set < 1 || set > 7)
        return answer(22, 0);
    if (set > 2)
        return answer(24, 0);
    if (bytes_len != n * 64 * k)
        return answer(25, 0);
    if (x_len < 256 * n || y_len < 256 * n)
        return answer(10, 0);
    split(n, k, bytes, x, y);
    return answer(0, 256 * n);
}

#endif
