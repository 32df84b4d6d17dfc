/* Whole polynomials. A polynomial of one coefficient is tried with the cases of the sampler. */
#include "client.h"

struct polynomial_case {
    size_t m;
    struct sample_case call;
};

#define POLYNOMIAL(m, ...) {m, CASE(__VA_ARGS__)}

enum { POLYNOMIAL_SHARES = COEFFICIENTS * SHARES, POLYNOMIAL_WORDS = COEFFICIENTS * SAMPLE_WORDS };

static void sample_all(const struct polynomial_case *cases, size_t count)
{
    for (size_t i = 0; i < count; i++) {
        uint16_t shares[POLYNOMIAL_SHARES];
        BEGIN_CASE(&cases[i].call);
        sample_polynomial(cases[i].m, &cases[i].call, 0, shares);
        if (cases[i].call.answer.code == 0)
            sample_polynomial(cases[i].m, &cases[i].call, SPARE, shares);
    }
}

/* The reference values one behind the other; and d, where x and its words change places with y and its own. */
static void polynomials_accepted(void)
{
    const struct polynomial_case cases[] = {
        POLYNOMIAL(2, 2, 1, 17, LIST(1, 0, 0, 0), LIST(1, 1, 0, 1), LIST(5, 3, 10, 16, 5, 3, 10, 14), 4, 2, {0, 8}, LIST(7, 11, 7, 9)),
        POLYNOMIAL(3, 2, 1, 17, LIST(0, 0, 1, 0, 0, 0), LIST(0, 1, 1, 1, 0, 1), LIST(5, 3, 10, 14, 5, 3, 10, 16, 5, 3, 10, 14), 6, 2, {0, 12},
                   LIST(7, 9, 7, 11, 7, 9)),
        POLYNOMIAL(2, 2, 1, 3, LIST(1, 1, 1, 1), LIST(1, 0, 1, 0), LIST(0, 0, 0, 0, 0, 0, 0, 0), 4, 2, {0, 8}, LIST(2, 0, 2, 0)),
        POLYNOMIAL(2, 3, 1, 17, LIST(1, 0, 1, 0, 0, 0), LIST(0, 0, 0, 1, 0, 1),
                   LIST(1, 2, 3, 4, 5, 6, 0, 0, 0, 0, 0, 0, 0, 0, 0, 0, 0, 0, 1, 2, 3, 4, 5, 6), 6, 3, {0, 24}, LIST(12, 4, 1, 5, 13, 16)),
    };
    sample_all(cases, COUNT(cases));
}

/* Three coefficients, each with 2 shares and 4 words. */
#define X LIST(1, 0, 0, 0, 1, 1)
#define Y LIST(1, 1, 0, 1, 0, 0)
#define R LIST(5, 3, 10, 16, 5, 3, 10, 14, 1, 2, 3, 4)

/* For each number one call with nothing else wrong, and one in which all that is asked later is wrong too. So below. Where m is too large,
 * the lists fit what m * n, m * W or m wraps to. */
static void polynomials_unfit(void)
{
    enum { MANY = COEFFICIENTS + 1 };
    static const uint16_t zeros[4 * MANY];
    const struct polynomial_case cases[] = {
        POLYNOMIAL(3, 1, 1, 17, LIST(1, 0, 1), LIST(1, 1, 0), R, 6, 2, {1, 0}, NONE),
        POLYNOMIAL(0, 0, 0, 0, NONE, NONE, NONE, 0, 0, {1, 0}, NONE),
        POLYNOMIAL(SIZE_MAX, SIZE_MAX, SIZE_MAX, 2, LIST(2), LIST(2), LIST(17), 0, 0, {1, 0}, NONE),
        POLYNOMIAL(3, 2, 17, 65535, X, Y, R, 6, 2, {2, 0}, NONE),
        POLYNOMIAL(SIZE_MAX, 8, SIZE_MAX, 0, LIST(2), LIST(2), LIST(17), 0, 0, {2, 0}, NONE),
        POLYNOMIAL(3, 2, 1, 2, X, Y, LIST(0, 1, 0, 1, 0, 1, 0, 1, 0, 1, 0, 1), 6, 2, {3, 0}, NONE),
        POLYNOMIAL(SIZE_MAX, 8, 16, 32, LIST(2), LIST(2), LIST(17), 0, 0, {3, 0}, NONE),
        POLYNOMIAL(0, 2, 1, 17, NONE, NONE, NONE, 0, 2, {23, 0}, NONE),
        POLYNOMIAL(0, 2, 1, 17, LIST(2), LIST(2), LIST(17), 0, 0, {23, 0}, NONE),
        POLYNOMIAL(MANY, 2, 1, 17, {zeros, 2 * MANY}, {zeros, 2 * MANY}, {zeros, 4 * MANY}, 2 * MANY, 2, {23, 0}, NONE),
        POLYNOMIAL(((size_t)1 << 32) + 3, 2, 1, 17, X, Y, R, 6, 2, {23, 0}, NONE),
        POLYNOMIAL(((size_t)1 << 62) + 3, 4, 1, 17, {zeros, 12}, {zeros, 12}, {zeros, 72}, 12, 4, {23, 0}, NONE),
        POLYNOMIAL(((size_t)1 << 63) + 3, 2, 1, 17, X, Y, R, 6, 2, {23, 0}, NONE),
        POLYNOMIAL((size_t)1 << 63, 2, 1, 17, NONE, NONE, NONE, 0, 2, {23, 0}, NONE),
        POLYNOMIAL(SIZE_MAX, 8, 16, 65535, LIST(2), LIST(2), LIST(17), 0, 0, {23, 0}, NONE),
        POLYNOMIAL(3, 2, 1, 17, LIST(1, 0, 0, 0, 1), Y, R, 6, 2, {4, 0}, NONE),
        POLYNOMIAL(3, 2, 1, 17, LIST(1, 0, 0, 0, 1, 1, 0), Y, R, 6, 2, {4, 0}, NONE),
        POLYNOMIAL(3, 2, 1, 17, LIST(1, 0), Y, R, 6, 2, {4, 0}, NONE),
        POLYNOMIAL(3, 2, 1, 17, NONE, NONE, NONE, 0, 0, {4, 0}, NONE),
        POLYNOMIAL(3, 2, 1, 17, LIST(2), LIST(2), LIST(17), 1, 1, {4, 0}, NONE),
        POLYNOMIAL(3, 2, 1, 17, X, LIST(1, 1, 0, 1, 0), R, 6, 2, {5, 0}, NONE),
        POLYNOMIAL(3, 2, 1, 17, X, LIST(1, 1, 0, 1, 0, 0, 1), R, 6, 2, {5, 0}, NONE),
        POLYNOMIAL(3, 2, 1, 17, X, LIST(1, 1), R, 6, 2, {5, 0}, NONE),
        POLYNOMIAL(3, 2, 1, 17, LIST(2, 0, 0, 0, 1, 1), LIST(2), LIST(17), 1, 1, {5, 0}, NONE),
    };
    sample_all(cases, COUNT(cases));
}

/* Checks 6 and 7: all shares of x before any of y, and both before the words. */
static void polynomials_wide(void)
{
    const struct polynomial_case cases[] = {
        POLYNOMIAL(3, 2, 1, 17, LIST(2, 0, 0, 0, 1, 1), Y, R, 6, 2, {6, 0}, NONE),
        POLYNOMIAL(3, 2, 1, 17, LIST(1, 0, 0, 2, 1, 1), Y, R, 6, 2, {6, 3}, NONE),
        POLYNOMIAL(3, 2, 1, 17, LIST(1, 0, 0, 0, 1, 65535), Y, R, 6, 2, {6, 5}, NONE),
        POLYNOMIAL(3, 2, 1, 17, LIST(1, 0, 0, 0, 1, 2), LIST(2, 1, 0, 1, 0, 0), LIST(17), 0, 0, {6, 5}, NONE),
        POLYNOMIAL(3, 2, 1, 17, X, LIST(2, 1, 0, 1, 0, 0), R, 6, 2, {7, 0}, NONE),
        POLYNOMIAL(3, 2, 1, 17, X, LIST(1, 1, 2, 1, 0, 0), R, 6, 2, {7, 2}, NONE),
        POLYNOMIAL(3, 2, 1, 17, X, LIST(1, 1, 0, 1, 0, 32768), R, 6, 2, {7, 5}, NONE),
        POLYNOMIAL(3, 2, 1, 17, X, LIST(1, 1, 0, 1, 2, 2), LIST(17), 0, 0, {7, 4}, NONE),
    };
    sample_all(cases, COUNT(cases));
}

/* Checks 8 to 11: the words and the room. */
static void polynomials_refused(void)
{
    const struct polynomial_case cases[] = {
        POLYNOMIAL(3, 2, 1, 17, X, Y, LIST(5, 3, 10, 16, 5, 3, 10, 14, 1, 2, 3), 6, 2, {8, 0}, NONE),
        POLYNOMIAL(3, 2, 1, 17, X, Y, LIST(5, 3, 10, 16), 6, 2, {8, 0}, NONE),
        POLYNOMIAL(3, 2, 1, 17, X, Y, LIST(17, 3, 10, 16, 5, 3, 10, 14, 1, 2, 3), 5, 1, {8, 0}, NONE),
        POLYNOMIAL(3, 2, 1, 17, X, Y, LIST(17, 3, 10, 16, 5, 3, 10, 14, 1, 2, 3, 4), 6, 2, {9, 0}, NONE),
        POLYNOMIAL(3, 2, 1, 17, X, Y, LIST(5, 3, 10, 16, 17, 3, 10, 14, 1, 2, 3, 4), 6, 2, {9, 4}, NONE),
        POLYNOMIAL(3, 2, 1, 17, X, Y, LIST(5, 3, 10, 16, 5, 3, 10, 14, 1, 2, 3, 65535), 6, 2, {9, 11}, NONE),
        POLYNOMIAL(3, 2, 1, 17, X, Y, LIST(5, 3, 10, 16, 5, 3, 10, 17, 17, 2, 3, 4), 5, 1, {9, 7}, NONE),
        POLYNOMIAL(3, 2, 1, 17, X, Y, R, 5, 2, {10, 0}, NONE),
        POLYNOMIAL(3, 2, 1, 17, X, Y, R, 2, 2, {10, 0}, NONE),
        POLYNOMIAL(3, 2, 1, 17, X, Y, R, 5, 1, {10, 0}, NONE),
        POLYNOMIAL(3, 2, 1, 17, X, Y, R, 0, 0, {10, 0}, NONE),
        POLYNOMIAL(3, 2, 1, 17, X, Y, R, 6, 1, {11, 0}, NONE),
        POLYNOMIAL(3, 2, 1, 17, X, Y, R, 6, 0, {11, 0}, NONE),
    };
    sample_all(cases, COUNT(cases));
}

/* The last word of the largest polynomial is not below q. */
static void last_word_high(void)
{
    static uint16_t zeros[POLYNOMIAL_SHARES], words[POLYNOMIAL_WORDS];
    list shares = {zeros, POLYNOMIAL_SHARES};
    words[POLYNOMIAL_WORDS - 1] = 33;
    const struct polynomial_case refused = POLYNOMIAL(COEFFICIENTS, SHARES, BITS, 33, shares, shares, {words, POLYNOMIAL_WORDS},
                                                      POLYNOMIAL_SHARES, SHARES, {9, POLYNOMIAL_WORDS - 1}, NONE);
    sample_all(&refused, 1);
}

/* Every coefficient is the sample of its shares and words. */
static void sample_each(size_t n, size_t k, uint16_t q, size_t m)
{
    static uint16_t x[POLYNOMIAL_SHARES], y[POLYNOMIAL_SHARES], words[POLYNOMIAL_WORDS], each[POLYNOMIAL_SHARES];
    size_t used = 2 * k * n * (n - 1);
    begin_case(__FILE__, __LINE__);
    draw(x, m * n, 1u << k);
    draw(y, m * n, 1u << k);
    draw(words, m * used, q);
    for (size_t t = 0; t < m; t++) {
        struct sample_case c = CASE(n, k, q, {x + t * n, n}, {y + t * n, n}, {words + t * used, used}, n, n, {0, used}, NONE);
        sample(&c, FRONT, 0, each + t * n);
    }
    const struct polynomial_case all = POLYNOMIAL(m, n, k, q, {x, m * n}, {y, m * n}, {words, m * used}, m * n, n, {0, m * used}, {each, m * n});
    sample_all(&all, 1);
}

void polynomial_cases(void)
{
    polynomials_accepted();
    polynomials_unfit();
    polynomials_wide();
    polynomials_refused();
    last_word_high();
    for (size_t n = 2; n <= SHARES; n++)
        sample_each(n, 2 * n, 12289, n % 3 + 2);
    sample_each(2, 2, 3329, COEFFICIENTS);
    sample_each(8, 1, 3, COEFFICIENTS - 1);
    sample_each(8, 16, 65535, COEFFICIENTS);
}
