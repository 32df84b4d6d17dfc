/* The work area of a sample and of a polynomial: lengths on both sides of n and of 2kn, over any content. What is expected is worked out by the
 * written steps. */
#include "client.h"

enum { MOST = 3, MORE = 5, LONGEST = 2 * BITS * SHARES + MORE };

/* What calls with any work area take, and the shares that they make of it. The unfit words have one that is not below q. */
struct input {
    size_t n, k;
    uint16_t q;
    uint16_t x[MOST * SHARES], y[MOST * SHARES], words[MOST * SAMPLE_WORDS], unfit[MOST * SAMPLE_WORDS], shares[MOST * SHARES];
};

static size_t sample_words(const struct input *in)
{
    return 2 * in->k * in->n * (in->n - 1);
}

/* The shares of coefficient t: the rows of x less those of y. */
static void expect_shares(struct input *in, size_t t)
{
    size_t n = in->n, k = in->k, q = in->q;
    for (size_t bit = 0; bit < 2 * k; bit++) {
        const uint16_t *string = (bit < k ? in->x : in->y) + t * n;
        uint16_t bits[SHARES], *shares = in->shares + t * n;
        uint32_t row[SHARES];
        for (size_t i = 0; i < n; i++)
            bits[i] = string[i] >> bit % k & 1;
        convert_row(n, in->q, bits, in->words + t * sample_words(in) + bit * n * (n - 1), row);
        for (size_t i = 0; i < n; i++)
            shares[i] = (uint16_t)(((bit == 0 ? 0 : shares[i]) + (bit < k ? row[i] : q - row[i])) % q);
    }
}

static void draw_input(struct input *in)
{
    size_t len = MOST * in->n, used = MOST * sample_words(in);
    draw(in->x, len, 1u << in->k);
    draw(in->y, len, 1u << in->k);
    draw(in->words, used, in->q);
    for (size_t i = 0; i < used; i++)
        in->unfit[i] = in->words[i];
    in->unfit[sample_words(in) - 1] = in->q;
    for (size_t t = 0; t < MOST; t++)
        expect_shares(in, t);
}

/* A word that is not below q and an output that is too short are found before the work area, which then has to have n places. */
static void call_over(const struct input *in, const size_t *m, size_t work, list before)
{
    size_t n = in->n, k = in->k, count = m == NULL ? 1 : *m, len = count * n, used = count * sample_words(in);
    const list x = {in->x, len}, y = {in->y, len}, words = {in->words, used}, unfit = {in->unfit, used};
    const struct sample_case cases[] = {
        CASE(n, k, in->q, x, y, unfit, len, work, {9, sample_words(in) - 1}, NONE),
        CASE(n, k, in->q, x, y, words, len - 1, work, {10, 0}, NONE),
        work < n ? (struct sample_case)CASE(n, k, in->q, x, y, words, len, work, {11, 0}, NONE)
                 : (struct sample_case)CASE(n, k, in->q, x, y, words, len + SPARE, work, {0, used}, {in->shares, len}),
    };
    for (size_t i = 0; i < COUNT(cases); i++) {
        uint16_t shares[MOST * SHARES];
        BEGIN_CASE(&cases[i]);
        call_sampler(m, &cases[i], m == NULL ? WITHIN : FRONT, 0, before, shares);
    }
}

/* Over content that no call may read, over all ones, and over any numbers but 0. */
static void call_all(const struct input *in, const size_t *m)
{
    uint16_t ones[LONGEST], drawn[LONGEST];
    size_t n = in->n, rows = 2 * in->k * n;
    const size_t lengths[] = {0, n - 1, n, n + 1, rows - 1, rows, rows + MORE};
    draw(drawn, LONGEST, 65535);
    for (size_t i = 0; i < LONGEST; i++)
        ones[i] = 65535, drawn[i]++;
    for (size_t i = 0; i < COUNT(lengths); i++) {
        call_over(in, m, lengths[i], (list)NONE);
        call_over(in, m, lengths[i], (list){ones, lengths[i]});
        call_over(in, m, lengths[i], (list){drawn, lengths[i]});
    }
}

static void areas(size_t n, size_t k, uint16_t q)
{
    static struct input in;
    const size_t m = MOST;
    in.n = n, in.k = k, in.q = q;
    draw_input(&in);
    call_all(&in, NULL);
    call_all(&in, &m);
}

void area_cases(void)
{
    static const size_t bits[] = {1, 2, 3, 16};
    for (size_t n = 2; n <= SHARES; n++) {
        for (size_t i = 0; i < COUNT(bits); i++) {
            areas(n, bits[i], (uint16_t)(2 * bits[i] + 1));
            areas(n, bits[i], 12289);
            areas(n, bits[i], 65535);
        }
    }
}
