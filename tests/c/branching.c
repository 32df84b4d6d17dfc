/* Samplers and a conversion that branch on the words, and a split that branches on the bytes: what tests/machine_code must find out when it counts
 * instructions. */
#include "tinplateau.h"

static tp_answer branch(const uint16_t *words, size_t words_len, uint16_t *out)
{
    for (size_t i = 0; i < words_len; i++) {
        if (words[i] % 2 == 1)
            out[0] = words[i];
    }
    return (tp_answer){0, words_len};
}

tp_answer tp_convert_value(size_t n, size_t k, uint16_t q, const uint16_t *shares, size_t shares_len, const uint16_t *words, size_t words_len,
                           uint16_t *out, size_t out_len)
{
    (void)n, (void)k, (void)q, (void)shares, (void)shares_len, (void)out_len;
    return branch(words, words_len, out);
}

tp_answer tp_sample(size_t n, size_t k, uint16_t q, const uint16_t *x, size_t x_len, const uint16_t *y, size_t y_len, const uint16_t *words,
                    size_t words_len, size_t start, uint16_t *out, size_t out_len, uint16_t *work, size_t work_len)
{
    (void)n, (void)k, (void)q, (void)x, (void)x_len, (void)y, (void)y_len, (void)start, (void)out_len, (void)work, (void)work_len;
    return branch(words, words_len, out);
}

tp_answer tp_sample_steps(size_t n, size_t k, uint16_t q, const uint16_t *x, size_t x_len, const uint16_t *y, size_t y_len,
                          const uint16_t *words, size_t words_len, uint16_t *out, size_t out_len, uint16_t *work, size_t work_len,
                          uint8_t *records, size_t records_len)
{
    (void)n, (void)k, (void)q, (void)x, (void)x_len, (void)y, (void)y_len, (void)out_len, (void)work, (void)work_len;
    (void)records, (void)records_len;
    return branch(words, words_len, out);
}

tp_answer tp_sample_polynomial(size_t n, size_t k, uint16_t q, size_t m, const uint16_t *x, size_t x_len, const uint16_t *y, size_t y_len,
                               const uint16_t *words, size_t words_len, uint16_t *out, size_t out_len, uint16_t *work, size_t work_len)
{
    (void)n, (void)k, (void)q, (void)m, (void)x, (void)x_len, (void)y, (void)y_len, (void)out_len, (void)work, (void)work_len;
    return branch(words, words_len, out);
}

tp_answer tp_split_noise(size_t n, size_t set, const uint8_t *bytes, size_t bytes_len, uint16_t *x, size_t x_len, uint16_t *y, size_t y_len)
{
    (void)set, (void)x_len, (void)y, (void)y_len;
    for (size_t i = 0; i < bytes_len; i++) {
        if (bytes[i] % 2 == 1)
            x[0] = bytes[i];
    }
    return (tp_answer){0, TP_NOISE_SHARES(n)};
}
