/* Of six functions, that of number DIVIDES, from 1, divides two calls below: what tests/machine_code must find out when it reads instructions. */
#include <stdint.h>

uint32_t tp_convert_bit(uint32_t word, uint32_t q);
uint32_t tp_sample(uint32_t word, uint32_t q);
uint32_t tp_sample_polynomial(uint32_t word, uint32_t q);
uint32_t tp_split_noise(uint32_t word, uint32_t q);
uint32_t tp_convert_value(uint32_t word, uint32_t q);
uint32_t tp_sample_steps(uint32_t word, uint32_t q);

__attribute__((noinline)) static uint32_t reduced(uint32_t word, uint32_t q)
{
    return word % q;
}

__attribute__((noinline)) static uint32_t doubled(uint32_t word, uint32_t q)
{
    return reduced(word, q) + reduced(word + 1, q);
}

uint32_t tp_convert_bit(uint32_t word, uint32_t q)
{
    return DIVIDES == 1 ? doubled(word, q) + 1 : word;
}

uint32_t tp_sample(uint32_t word, uint32_t q)
{
    return DIVIDES == 2 ? doubled(word, q) + 1 : word;
}

uint32_t tp_sample_polynomial(uint32_t word, uint32_t q)
{
    return DIVIDES == 3 ? doubled(word, q) + 1 : word;
}

uint32_t tp_split_noise(uint32_t word, uint32_t q)
{
    return DIVIDES == 4 ? doubled(word, q) + 1 : word;
}

uint32_t tp_convert_value(uint32_t word, uint32_t q)
{
    return DIVIDES == 5 ? doubled(word, q) + 1 : word;
}

uint32_t tp_sample_steps(uint32_t word, uint32_t q)
{
    return DIVIDES == 6 ? doubled(word, q) + 1 : word;
}
