/* Calls that start inside the word list. sampling.c tries its own cases in such a place too. */
#include "client.h"

struct bit_start {
    size_t start;
    struct bit_case call;
};

struct sample_start {
    size_t start;
    struct sample_case call;
};

#define START(start, ...) {start, CASE(__VA_ARGS__)}

/* A start in the list of the case. */
#define AT(start) ((origin){0, start})

static void fill(uint16_t *words, size_t len, uint16_t word)
{
    for (size_t i = 0; i < len; i++)
        words[i] = word;
}

static void convert_all(const struct bit_start *cases, size_t count)
{
    for (size_t i = 0; i < count; i++) {
        uint16_t shares[SHARES];
        BEGIN_CASE(&cases[i].call);
        convert_bit(&cases[i].call, AT(cases[i].start), 0, shares);
    }
}

static void sample_all(const struct sample_start *cases, size_t count)
{
    for (size_t i = 0; i < count; i++) {
        uint16_t shares[SHARES];
        BEGIN_CASE(&cases[i].call);
        sample(&cases[i].call, AT(cases[i].start), 0, shares);
    }
}

static void bits_inside(void)
{
    const struct bit_start cases[] = {
        START(0, 2, 17, LIST(1, 0), LIST(5, 3, 10, 16), 2, {0, 2}, LIST(16, 2)),
        START(2, 2, 17, LIST(1, 1), LIST(5, 3, 10, 16), 2, {0, 4}, LIST(9, 8)),
        START(1, 2, 17, LIST(1, 0), LIST(17, 5, 3, 65535), 2, {0, 3}, LIST(16, 2)),
        START(3, 2, 17, LIST(1, 1), LIST(65535, 17, 18, 10, 16, 17), 2, {0, 5}, LIST(9, 8)),
        START(5, 3, 17, LIST(1, 0, 1), LIST(17, 17, 17, 17, 17, 1, 2, 3, 4, 5, 6), 3, {0, 11}, LIST(12, 4, 1)),
        START(6, 3, 17, LIST(1, 0, 1), LIST(6, 5, 4, 3, 2, 1, 1, 2, 3, 4, 5, 6, 7), 3, {0, 12}, LIST(12, 4, 1)),
        START(1, 2, 65535, LIST(1, 1), LIST(65535, 65534, 65534, 65535), 2, {0, 3}, LIST(65533, 2)),
        START(2, 2, 17, LIST(1, 0), LIST(17, 17, 17, 3, 17), 2, {9, 2}, NONE),
        START(2, 2, 17, LIST(1, 0), LIST(17, 17, 5, 17, 17), 2, {9, 3}, NONE),
        START(3, 3, 17, LIST(1, 0, 1), LIST(17, 17, 17, 1, 2, 3, 17, 5, 17, 17), 0, {9, 6}, NONE),
        START(3, 3, 17, LIST(1, 0, 1), LIST(17, 17, 17, 1, 2, 3, 4, 5, 17), 3, {9, 8}, NONE),
        START(2, 2, 17, LIST(1, 0), LIST(17, 17, 5, 3, 17), 1, {10, 0}, NONE),
        START(2, 2, 17, LIST(1, 0), LIST(17, 17, 5, 3), 0, {10, 0}, NONE),
        START(0, 2, 17, LIST(1, 0), NONE, 2, {8, 0}, NONE),
        START(1, 2, 17, LIST(1, 0), NONE, 2, {8, 0}, NONE),
        START(SIZE_MAX, 2, 17, LIST(1, 0), NONE, 2, {8, 0}, NONE),
        START(SIZE_MAX, 2, 17, LIST(1, 0), LIST(5), 2, {8, 0}, NONE),
        START(SIZE_MAX, 2, 17, LIST(2, 0), LIST(5, 3), 2, {6, 0}, NONE),
    };
    convert_all(cases, COUNT(cases));
}

/* With the shares and words of a, b and d. */
static void samples_inside(void)
{
    const struct sample_start cases[] = {
        START(4, 2, 1, 17, LIST(1, 0), LIST(1, 1), LIST(5, 3, 10, 14, 5, 3, 10, 16), 2, 2, {0, 8}, LIST(7, 11)),
        START(1, 2, 1, 17, LIST(0, 0), LIST(0, 1), LIST(17, 5, 3, 10, 14, 65535), 2, 2, {0, 5}, LIST(7, 9)),
        START(2, 2, 1, 17, LIST(1, 0), LIST(1, 1), LIST(65535, 17, 5, 3, 10, 16), 2, 2, {0, 6}, LIST(7, 11)),
        START(3, 3, 1, 17, LIST(1, 0, 1), LIST(0, 0, 0), LIST(17, 17, 17, 1, 2, 3, 4, 5, 6, 0, 0, 0, 0, 0, 0, 17), 3, 3, {0, 15}, LIST(12, 4, 1)),
        START(1, 3, 1, 17, LIST(0, 0, 0), LIST(1, 0, 1), LIST(17, 0, 0, 0, 0, 0, 0, 1, 2, 3, 4, 5, 6, 17), 3, 3, {0, 13}, LIST(5, 13, 16)),
        START(2, 2, 1, 17, LIST(1, 0), LIST(1, 1), LIST(17, 17, 17, 3, 10, 16, 17), 2, 2, {9, 2}, NONE),
        START(2, 2, 1, 17, LIST(1, 0), LIST(1, 1), LIST(17, 17, 5, 3, 17, 16, 17), 0, 0, {9, 4}, NONE),
        START(2, 2, 1, 17, LIST(1, 0), LIST(1, 1), LIST(17, 17, 5, 3, 10, 65535, 17), 2, 2, {9, 5}, NONE),
        START(2, 2, 1, 17, LIST(1, 0), LIST(1, 1), LIST(17, 17, 5, 3, 10, 16, 17), 1, 2, {10, 0}, NONE),
        START(2, 2, 1, 17, LIST(1, 0), LIST(1, 1), LIST(17, 17, 5, 3, 10, 16, 17), 2, 1, {11, 0}, NONE),
        START(0, 2, 1, 17, LIST(1, 0), LIST(1, 1), NONE, 2, 2, {8, 0}, NONE),
        START(1, 2, 1, 17, LIST(1, 0), LIST(1, 1), NONE, 2, 2, {8, 0}, NONE),
        START(SIZE_MAX, 2, 1, 17, LIST(1, 0), LIST(1, 1), NONE, 2, 2, {8, 0}, NONE),
        START(SIZE_MAX, 2, 1, 17, LIST(1, 0), LIST(1, 1), LIST(5, 3, 10), 2, 2, {8, 0}, NONE),
        START(SIZE_MAX, 2, 1, 17, LIST(1, 0), LIST(1, 2), LIST(5, 3, 10, 16), 2, 2, {7, 1}, NONE),
    };
    sample_all(cases, COUNT(cases));
}

/* Starts from which a list of len words has fewer than needed, where from 0 and from 1 on it has them. Many would fit if the sum wrapped around or
 * if the start lost its high bits, in words or in bytes. */
#define TOO_FAR(len, needed) \
    {(len) - (needed) + 1, (len) - 1, (len), (len) + 1, (len) + (needed), ((size_t)1 << 16) + 1, ((size_t)1 << 32) + 1, \
     SIZE_MAX / 2, SIZE_MAX / 2 + 1, SIZE_MAX / 2 + 2, SIZE_MAX - (needed) - 1, SIZE_MAX - (needed), SIZE_MAX - (needed) + 1, \
     SIZE_MAX - (needed) + 2, SIZE_MAX - 1, SIZE_MAX}

/* One call with nothing else wrong, and one in which all that is asked later is wrong too. So below. */
static void bits_too_far(size_t n)
{
    uint16_t fit[SHARES * SHARES] = {0}, high[SHARES * SHARES];
    size_t needed = n * (n - 1), len = needed + 1;
    const size_t starts[] = TOO_FAR(len, needed);
    fill(high, len, 17);
    for (size_t i = 0; i < COUNT(starts); i++) {
        const struct bit_start cases[] = {
            START(starts[i], n, 17, {fit, n}, {fit, len}, n, {8, 0}, NONE),
            START(starts[i], n, 17, {fit, n}, {high, len}, 0, {8, 0}, NONE),
        };
        convert_all(cases, COUNT(cases));
    }
}

static void samples_too_far(size_t n, size_t k)
{
    static uint16_t fit[SAMPLE_WORDS + 1], high[SAMPLE_WORDS + 1];
    size_t needed = 2 * k * n * (n - 1), len = needed + 1;
    const size_t starts[] = TOO_FAR(len, needed);
    fill(high, len, 65535);
    for (size_t i = 0; i < COUNT(starts); i++) {
        const struct sample_start cases[] = {
            START(starts[i], n, k, 65535, {fit, n}, {fit, n}, {fit, len}, n, n, {8, 0}, NONE),
            START(starts[i], n, k, 65535, {fit, n}, {fit, n}, {high, len}, 0, 0, {8, 0}, NONE),
        };
        sample_all(cases, COUNT(cases));
    }
}

/* A start of more than 16 bits. */
static void far_inside(void)
{
    enum { FAR = 65538, LEN = FAR + 5 };
    static uint16_t words[LEN];
    fill(words, LEN, 65535);
    words[FAR] = 5, words[FAR + 1] = 3, words[FAR + 2] = 10, words[FAR + 3] = 16;
    const struct bit_start bits[] = {
        START(FAR, 2, 17, LIST(1, 0), {words, LEN}, 2, {0, FAR + 2}, LIST(16, 2)),
        START(FAR + 3, 2, 17, LIST(1, 0), {words, LEN}, 2, {9, FAR + 4}, NONE),
        START(FAR + 4, 2, 17, LIST(1, 0), {words, LEN}, 2, {8, 0}, NONE),
    };
    const struct sample_start samples[] = {
        START(FAR, 2, 1, 17, LIST(1, 0), LIST(1, 1), {words, LEN}, 2, 2, {0, FAR + 4}, LIST(7, 11)),
        START(FAR + 1, 2, 1, 17, LIST(1, 0), LIST(1, 1), {words, LEN}, 2, 2, {9, FAR + 4}, NONE),
        START(FAR + 2, 2, 1, 17, LIST(1, 0), LIST(1, 1), {words, LEN}, 2, 2, {8, 0}, NONE),
    };
    convert_all(bits, COUNT(bits));
    sample_all(samples, COUNT(samples));
}

/* Calls that hand the position on, from the second word to the last but one: a, b, the bits of a, and d. There no call can start. */
static void walk(void)
{
    static const uint16_t words[] = {17, 5, 3, 10, 16, 5, 3, 10, 14, 5, 3, 10, 16, 1, 2, 3, 4, 5, 6, 0, 0, 0, 0, 0, 0, 65535};
    const list all = {words, COUNT(words)};
    const struct sample_case a = CASE(2, 1, 17, LIST(1, 0), LIST(1, 1), all, 2, 2, {0, 5}, LIST(7, 11));
    const struct sample_case b = CASE(2, 1, 17, LIST(0, 0), LIST(0, 1), all, 2, 2, {0, 9}, LIST(7, 9));
    const struct bit_case x = CASE(2, 17, LIST(1, 0), all, 2, {0, 11}, LIST(16, 2));
    const struct bit_case y = CASE(2, 17, LIST(1, 1), all, 2, {0, 13}, LIST(9, 8));
    const struct sample_case d = CASE(3, 1, 17, LIST(1, 0, 1), LIST(0, 0, 0), all, 3, 3, {0, 25}, LIST(12, 4, 1));
    const struct bit_case last = CASE(2, 17, LIST(1, 0), all, 2, {8, 0}, NONE);
    uint16_t shares[SHARES];
    begin_case(__FILE__, __LINE__);
    size_t at = sample(&a, AT(1), 0, shares);
    at = sample(&b, AT(at), 0, shares);
    at = convert_bit(&x, AT(at), 0, shares);
    at = convert_bit(&y, AT(at), 0, shares);
    at = sample(&d, AT(at), 0, shares);
    CHECK(at == all.len - 1);
    convert_bit(&last, AT(at), 0, shares);
}

/* Samples that hand the position on make what each makes of its own words alone. */
static void walk_pieces(size_t n, size_t k, uint16_t q)
{
    enum { PIECES = 3 };
    static uint16_t words[PIECES * SAMPLE_WORDS];
    size_t used = 2 * k * n * (n - 1), at = SPARE;
    begin_case(__FILE__, __LINE__);
    draw(words, PIECES * used, q);
    for (size_t t = 0; t < PIECES; t++) {
        uint16_t x[SHARES], y[SHARES], alone[SHARES], shares[SHARES];
        draw(x, n, 1u << k);
        draw(y, n, 1u << k);
        struct sample_case c = CASE(n, k, q, {x, n}, {y, n}, {words + t * used, used}, n, n, {0, used}, NONE);
        sample(&c, FRONT, 0, alone);
        struct sample_case on = CASE(n, k, q, {x, n}, {y, n}, {words, PIECES * used}, n, n, {0, (t + 1) * used}, {alone, n});
        at = sample(&on, (origin){SPARE, at}, SPARE, shares);
    }
    CHECK(at == SPARE + PIECES * used);
}

/* The bits of a sample, converted one after the other from where it starts, end where it ends and add up to it. */
static void walk_bits(size_t n, size_t k, uint16_t q)
{
    static uint16_t words[SAMPLE_WORDS];
    uint16_t strings[2][SHARES], sampled[SHARES], sums[SHARES] = {0};
    size_t used = 2 * k * n * (n - 1), at = SPARE;
    begin_case(__FILE__, __LINE__);
    draw(words, used, q);
    draw(strings[0], n, 1u << k);
    draw(strings[1], n, 1u << k);
    struct sample_case c = CASE(n, k, q, {strings[0], n}, {strings[1], n}, {words, used}, n, n, {0, used}, NONE);
    size_t end = sample(&c, WITHIN, SPARE, sampled);
    for (size_t row = 0; row < 2 * k; row++) {
        uint16_t bits[SHARES], shares[SHARES];
        for (size_t i = 0; i < n; i++)
            bits[i] = strings[row / k][i] >> row % k & 1;
        struct bit_case bit = CASE(n, q, {bits, n}, {words, used}, n, {0, (row + 1) * n * (n - 1)}, NONE);
        at = convert_bit(&bit, (origin){SPARE, at}, SPARE, shares);
        for (size_t i = 0; i < n; i++)
            sums[i] = (sums[i] + (row < k ? shares[i] : (uint32_t)q - shares[i])) % q;
    }
    CHECK(at == end);
    check_shares(sampled, (list){sums, n});
}

void start_cases(void)
{
    bits_inside();
    samples_inside();
    far_inside();
    walk();
    for (size_t n = 2; n <= SHARES; n++) {
        bits_too_far(n);
        samples_too_far(n, 2 * n);
        walk_pieces(n, 2 * n, 12289);
        walk_bits(n, 2 * n, 12289);
    }
    samples_too_far(2, 1);
    samples_too_far(8, 1);
    walk_pieces(2, 1, 3);
    walk_bits(8, 1, 65535);
}
