/* One call: count tp_sample 1 n k q input, count tp_sample_steps 1 n k q input, count tp_sample_polynomial m n k q input, count tp_convert_value
 * 1 n k q input, or count tp_split_noise 256 n k 3329 input. Input 0 is all zeros, 1 all largest values, and another number a seed. tp_sample starts
 * behind words of any value. */
#include "seeded.h"
#include "tinplateau.h"

#include <stdbool.h>
#include <stdlib.h>
#include <string.h>

enum { SHARES = 8, BITS = 16, SAMPLE_WORDS = 2 * BITS * SHARES * (SHARES - 1), MOST = 3, START = 5, NOISE = 256 };

static uint16_t x[NOISE * SHARES], y[NOISE * SHARES], words[START + MOST * SAMPLE_WORDS], out[MOST * SHARES], work[SHARES];

static void make(uint16_t *list, size_t len, uint32_t bound, unsigned long input)
{
    static uint64_t state;
    state += input;
    for (size_t i = 0; i < len; i++) {
        uint16_t seeded = seeded_below(&state, bound);
        list[i] = input == 0 ? 0 : input == 1 ? (uint16_t)(bound - 1) : seeded;
    }
}

/* Sets 1 and 2 have a k of 2 and 3. */
static int count_split(size_t m, size_t n, size_t k, uint16_t q, unsigned long input)
{
    static uint8_t bytes[TP_NOISE_BYTES(SHARES, 3)];
    size_t len = TP_NOISE_BYTES(n, k), shares = TP_NOISE_SHARES(n);
    if (m != NOISE || n > SHARES || k < 2 || k > 3 || q != 3329)
        return EXIT_FAILURE;
    make(words, len, 1u << 8, input);
    for (size_t i = 0; i < len; i++)
        bytes[i] = (uint8_t)words[i];
    tp_answer answer = tp_split_noise(n, k - 1, bytes, len, x, shares, y, shares);
    return answer.code == 0 && answer.value == shares ? EXIT_SUCCESS : EXIT_FAILURE;
}

static int count_value(size_t m, size_t n, size_t k, uint16_t q, unsigned long input)
{
    size_t used = k * n * (n - 1);
    if (m != 1 || n > SHARES || k > BITS)
        return EXIT_FAILURE;
    make(x, n, 1u << k, input);
    make(words, used, q, input);
    tp_answer answer = tp_convert_value(n, k, q, x, n, words, used, out, n);
    return answer.code == 0 && answer.value == used ? EXIT_SUCCESS : EXIT_FAILURE;
}

static int count_steps(size_t m, size_t n, size_t k, uint16_t q, unsigned long input)
{
    static uint8_t records[TP_STEP_BYTES(SHARES, BITS)];
    size_t used = TP_SAMPLE_WORDS(n, k), room = TP_STEP_BYTES(n, k);
    if (m != 1 || n > SHARES || k > BITS)
        return EXIT_FAILURE;
    make(x, n, 1u << k, input);
    make(y, n, 1u << k, input);
    make(words, used, q, input);
    tp_answer answer = tp_sample_steps(n, k, q, x, n, y, n, words, used, out, n, work, n, records, room);
    return answer.code == 0 && answer.value == used ? EXIT_SUCCESS : EXIT_FAILURE;
}

int main(int argc, char **argv)
{
    if (argc != 7)
        return EXIT_FAILURE;
    size_t m = strtoul(argv[2], NULL, 10), n = strtoul(argv[3], NULL, 10), k = strtoul(argv[4], NULL, 10);
    size_t shares = m * n, used = m * 2 * k * n * (n - 1);
    uint16_t q = (uint16_t)strtoul(argv[5], NULL, 10);
    unsigned long input = strtoul(argv[6], NULL, 10);
    if (strcmp(argv[1], "tp_split_noise") == 0)
        return count_split(m, n, k, q, input);
    if (strcmp(argv[1], "tp_convert_value") == 0)
        return count_value(m, n, k, q, input);
    if (strcmp(argv[1], "tp_sample_steps") == 0)
        return count_steps(m, n, k, q, input);
    if (m > MOST || n > SHARES || k > BITS)
        return EXIT_FAILURE;
    make(x, shares, 1u << k, input);
    make(y, shares, 1u << k, input);
    make(words, START, 1u << 16, input);
    make(words + START, used, q, input);
    bool one = strcmp(argv[1], "tp_sample") == 0;
    tp_answer answer = one ? tp_sample(n, k, q, x, shares, y, shares, words, START + used, START, out, shares, work, n)
                           : tp_sample_polynomial(n, k, q, m, x, shares, y, shares, words + START, used, out, shares, work, n);
    return answer.code == 0 && answer.value == used + (one ? START : 0) ? EXIT_SUCCESS : EXIT_FAILURE;
}
