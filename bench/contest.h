/* The contests: who samples, splits or converts what, on which calls. A sample, also one with step records, is seen as a polynomial of one
 * coefficient, and so is a value. */
#ifndef BENCH_CONTEST_H
#define BENCH_CONTEST_H

#include "tinplateau.h"

#include <stdbool.h>

enum {
    SPARE = 8,
    MAX_SHARES = TP_MAX_COEFFICIENTS * TP_MAX_SHARES,
    MAX_WORK = TP_SAMPLE_WORK(TP_MAX_SHARES),
    MAX_CONTESTANTS = 5,
    MAX_POINTS = 4,
    CONTESTS = 5,
    GOALS = 2
};

typedef tp_answer sampler(size_t n, size_t k, uint16_t q, const uint16_t *x, size_t x_len, const uint16_t *y, size_t y_len,
                          const uint16_t *words, size_t words_len, uint16_t *out, size_t out_len, uint16_t *work, size_t work_len);
typedef tp_answer starting_sampler(size_t n, size_t k, uint16_t q, const uint16_t *x, size_t x_len, const uint16_t *y, size_t y_len,
                                   const uint16_t *words, size_t words_len, size_t start, uint16_t *out, size_t out_len, uint16_t *work,
                                   size_t work_len);
typedef tp_answer polynomial_sampler(size_t n, size_t k, uint16_t q, size_t m, const uint16_t *x, size_t x_len, const uint16_t *y,
                                     size_t y_len, const uint16_t *words, size_t words_len, uint16_t *out, size_t out_len, uint16_t *work,
                                     size_t work_len);
typedef tp_answer noise_splitter(size_t n, size_t set, const uint8_t *bytes, size_t bytes_len, uint16_t *x, size_t x_len, uint16_t *y,
                                 size_t y_len);
typedef tp_answer step_sampler(size_t n, size_t k, uint16_t q, const uint16_t *x, size_t x_len, const uint16_t *y, size_t y_len,
                               const uint16_t *words, size_t words_len, uint16_t *out, size_t out_len, uint16_t *work, size_t work_len,
                               uint8_t *records, size_t records_len);
typedef tp_answer value_converter(size_t n, size_t k, uint16_t q, const uint16_t *shares, size_t shares_len, const uint16_t *words,
                                  size_t words_len, uint16_t *out, size_t out_len);

typedef enum { LIBRARY, SINGLE, PLAIN, CAREFUL } kind;

/* `whole`: `polynomial`, `split`, `convert` or `steps` is called once; else `sample` or `starting` for each coefficient. `name` is the function's. */
typedef struct {
    kind kind;
    const char *title, *name;
    bool whole;
    sampler *sample;
    starting_sampler *starting;
    polynomial_sampler *polynomial;
    noise_splitter *split;
    value_converter *convert;
    step_sampler *steps;
} contestant;

/* At most this share of the time of the fastest of a kind, from n shares on; missed where it is exceeded by more than the noise. Where it is 0 there
 * is no goal, and the two are only shown side by side. */
typedef struct {
    kind kind;
    const char *title;
    double most, noise;
    size_t from;
} goal;

typedef struct {
    size_t n, k;
    uint16_t q;
} point;

/* A split takes no random words, and its k is 2 or 3. Samples with step records are timed by the record, all else by the coefficient. */
typedef enum { SAMPLES, SPLITS, VALUES, STEPS } task;

/* The goals are about the first contestant. It is timed on `inputs` calls of m coefficients; agreement is tried `agreements` times at every n and k,
 * with calls unfit for these checks. */
typedef struct {
    const char *name, *title, *unit;
    size_t points_len;
    const point *points;
    task task;
    size_t m, inputs, agreements, checks_len;
    const enum tp_code *checks;
    goal goals[GOALS];
    size_t count;
    contestant contestants[MAX_CONTESTANTS];
} contest;

/* What a call is given. Lists are as long as they are lent, or longer. `other_shares` and `other_words` are those of m - 1 coefficients. A split has
 * the set and the bytes, and x_len and y_len are those of the outcome's lists. A converted string is x. */
typedef struct {
    point p;
    size_t m, x_len, y_len, words_len, out_len, work_len, other_shares, other_words;
    uint16_t *x, *y, *words;
    size_t set, bytes_len, records_len;
    uint8_t *bytes;
} call;

/* What a call leaves behind: a sampler its work area and output, and records where it makes them, a conversion its output, a split x in place of
 * the output, and y. */
typedef struct {
    tp_answer answer;
    uint16_t work[MAX_WORK + SPARE], out[MAX_SHARES + SPARE], y[MAX_SHARES + SPARE];
    uint8_t records[TP_STEP_BYTES(TP_MAX_SHARES, TP_MAX_BITS) + SPARE];
} outcome;

/* One number for each point and contestant. */
typedef double table[MAX_POINTS][MAX_CONTESTANTS];

extern const contest contests[CONTESTS];

/* calls.c */
size_t words_needed(const contest *in, point p, size_t m);
size_t units(const contest *in, point p);
size_t random_within(size_t low, size_t high);
void make_call(call *c, const contest *in, point p, size_t m);
void free_call(call *c);
call *make_calls(const contest *in, point p);

/* agree.c */
bool agree_everywhere(const contest *in);

/* tables.c */
void print_times(const contest *in, const table times);
void print_counts(const contest *in, const table counts);

static inline tp_answer run_whole(const contestant *who, const call *c, outcome *o)
{
    point p = c->p;
    if (who->split != NULL)
        return who->split(p.n, c->set, c->bytes, c->bytes_len, o->out, c->x_len, o->y, c->y_len);
    if (who->convert != NULL)
        return who->convert(p.n, p.k, p.q, c->x, c->x_len, c->words, c->words_len, o->out, c->out_len);
    if (who->steps != NULL)
        return who->steps(p.n, p.k, p.q, c->x, c->x_len, c->y, c->y_len, c->words, c->words_len, o->out, c->out_len, o->work, c->work_len, o->records,
                          c->records_len);
    return who->polynomial(p.n, p.k, p.q, c->m, c->x, c->x_len, c->y, c->y_len, c->words, c->words_len, o->out, c->out_len, o->work, c->work_len);
}

/* The call as a contestant makes it. Where that takes m calls, each is lent its part of the lists; the answer is the first refusal, or the words
 * of all. Nothing is worked out before a sample: that would be timed. */
static inline tp_answer run_call(const contestant *who, const call *c, outcome *o)
{
    size_t n = c->p.n, k = c->p.k;
    const uint16_t *x = c->x, *y = c->y, *words = c->words;
    uint16_t *out = o->out, *work = o->work;
    if (who->whole)
        return run_whole(who, c, o);
    for (size_t left = c->m;;) {
        tp_answer one = who->starting != NULL
                            ? who->starting(n, k, c->p.q, x, c->x_len - c->other_shares, y, c->y_len - c->other_shares, words,
                                            c->words_len - c->other_words, 0, out, c->out_len - c->other_shares, work, c->work_len)
                            : who->sample(n, k, c->p.q, x, c->x_len - c->other_shares, y, c->y_len - c->other_shares, words,
                                          c->words_len - c->other_words, out, c->out_len - c->other_shares, work, c->work_len);
        left--;
        if (left == 0 || one.code != 0)
            return (tp_answer){one.code, one.value + (one.code == 0 ? c->other_words : 0)};
        x += n;
        y += n;
        words += one.value;
        out += n;
    }
}

#endif
