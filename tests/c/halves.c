/* Masking and opening by halves, without checks: what tests/frames must find out. */
#include "tinplateau.h"

/* The sum of a list where q is not 0, else its XOR. */
static uint16_t halves(const uint16_t *list, size_t length, uint16_t q)
{
    if (length == 1)
        return list[0];
    uint32_t a = halves(list, length / 2, q), b = halves(list + length / 2, length - length / 2, q);
    return (uint16_t)(q == 0 ? a ^ b : (a + b) % q);
}

tp_answer tp_mask(size_t n, size_t k, tp_string value, const uint16_t *masks, size_t masks_len, uint16_t *out, size_t out_len)
{
    (void)k, (void)out_len;
    for (size_t i = 0; i < masks_len; i++)
        out[i] = masks[i];
    out[masks_len] = value.bits ^ halves(masks, masks_len, 0);
    return (tp_answer){TP_ACCEPTED, n};
}

tp_opened_string tp_open_string(size_t n, size_t k, const uint16_t *shares, size_t shares_len)
{
    (void)n, (void)k;
    return (tp_opened_string){TP_ACCEPTED, 0, {halves(shares, shares_len, 0)}};
}

tp_opened_residue tp_open_residue(size_t n, uint16_t q, const uint16_t *shares, size_t shares_len)
{
    (void)n;
    return (tp_opened_residue){TP_ACCEPTED, 0, {halves(shares, shares_len, q)}};
}
