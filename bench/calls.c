/* Random calls. */
#include "contest.h"

#include <stdlib.h>

/* xorshift64, from a fixed start: every run has the same inputs. */
static uint64_t next_random(void)
{
    static uint64_t state = 0x9e3779b97f4a7c15;
    state ^= state << 13;
    state ^= state >> 7;
    state ^= state << 17;
    return state >> 16;
}

/* From low to high. */
size_t random_within(size_t low, size_t high)
{
    return low + next_random() % (high - low + 1);
}

/* A list of random numbers below the limit, with room behind it. */
static uint16_t *make_list(size_t len, size_t limit)
{
    uint16_t *list = calloc(len + SPARE, sizeof *list);
    if (list == NULL)
        abort();
    for (size_t i = 0; i < len; i++)
        list[i] = random_within(0, limit - 1);
    return list;
}

/* The random words of a call of m coefficients. */
size_t words_needed(const contest *in, point p, size_t m)
{
    return in->task == VALUES ? TP_VALUE_WORDS(p.n, p.k) : TP_POLYNOMIAL_WORDS(p.n, p.k, m);
}

/* The coefficients or records of a call, by which it is timed. */
size_t units(const contest *in, point p)
{
    return in->task == STEPS ? TP_STEP_RECORDS(p.n, p.k) : in->m;
}

/* The bytes of a point, whose k is that of set 1 or 2. */
static void make_split(call *c, point p)
{
    size_t len = TP_NOISE_BYTES(p.n, p.k), shares = TP_NOISE_SHARES(p.n);
    *c = (call){.p = p,
                .m = TP_MAX_COEFFICIENTS,
                .x_len = shares + random_within(0, SPARE),
                .y_len = shares + random_within(0, SPARE),
                .set = p.k - 1,
                .bytes_len = len,
                .bytes = calloc(len + SPARE, 1)};
    if (c->bytes == NULL)
        abort();
    for (size_t i = 0; i < len; i++)
        c->bytes[i] = random_within(0, UINT8_MAX);
}

static void make_sample(call *c, const contest *in, point p, size_t m)
{
    size_t shares = TP_POLYNOMIAL_SHARES(p.n, m);
    *c = (call){.p = p,
                .m = m,
                .x_len = shares,
                .y_len = shares,
                .words_len = words_needed(in, p, m) + random_within(0, SPARE),
                .out_len = shares + random_within(0, SPARE),
                .work_len = TP_SAMPLE_WORK(p.n) + random_within(0, SPARE),
                .other_shares = shares - p.n,
                .other_words = TP_POLYNOMIAL_WORDS(p.n, p.k, m - 1)};
    c->x = make_list(shares, 1u << p.k);
    c->y = make_list(shares, 1u << p.k);
    c->words = make_list(c->words_len, p.q);
    if (in->task == STEPS)
        c->records_len = TP_STEP_BYTES(p.n, p.k) + random_within(0, SPARE);
}

/* An accepted call. */
void make_call(call *c, const contest *in, point p, size_t m)
{
    if (in->task == SPLITS)
        make_split(c, p);
    else
        make_sample(c, in, p, m);
}

void free_call(call *c)
{
    free(c->bytes);
    free(c->x);
    free(c->y);
    free(c->words);
}

/* The inputs of a contest at a point. They are kept to the end. */
call *make_calls(const contest *in, point p)
{
    call *calls = calloc(in->inputs, sizeof *calls);
    if (calls == NULL)
        abort();
    for (size_t i = 0; i < in->inputs; i++)
        make_call(&calls[i], in, p, in->m);
    return calls;
}
