/* The sampler with step records. Beside records that are written out, what is expected is worked out by the written steps. */
#include "client.h"

#include <string.h>

/* What a call takes. */
struct input {
    size_t n, k;
    uint16_t q;
    uint16_t x[SHARES], y[SHARES], words[SAMPLE_WORDS];
};

/* The place of the next record, and the bit that it is about. */
struct trace {
    uint8_t *at;
    size_t bit;
};

static void record(struct trace *t, size_t round, size_t share, uint8_t kind, uint32_t value)
{
    const uint8_t bytes[RECORD] = {'S', 'T', (uint8_t)t->bit, (uint8_t)round, (uint8_t)share, kind, (uint8_t)(value % 256), (uint8_t)(value / 256)};
    memcpy(t->at, bytes, RECORD);
    t->at += RECORD;
}

static void record_shares(struct trace *t, size_t round, uint8_t kind, const uint32_t *values, size_t count)
{
    for (size_t i = 0; i < count; i++)
        record(t, round, i + 1, kind, values[i]);
}

/* Round j, from 2 on, with its j - 1 words: A becomes B, and then C. */
static void record_round(struct trace *t, size_t j, uint32_t b, uint32_t q, const uint16_t *r, uint32_t row[SHARES])
{
    uint32_t products[SHARES];
    record(t, j, j, 0, b);
    row[j - 1] = 0;
    for (size_t i = 0; i < j - 1; i++) {
        row[i] = (row[i] + q - r[i]) % q;
        row[j - 1] = (row[j - 1] + r[i]) % q;
    }
    record_shares(t, j, 1, row, j);
    for (size_t i = 0; i < j; i++)
        products[i] = row[i] * b % q;
    record_shares(t, j, 2, products, j);
    for (size_t i = 0; i < j; i++)
        row[i] = (row[i] + 2 * (q - products[i])) % q;
    row[0] = (row[0] + b) % q;
    record_shares(t, j, 3, row, j);
}

/* Step 3, with its n(n - 1)/2 words. */
static void record_pairs(struct trace *t, size_t n, uint32_t q, const uint16_t *r, uint32_t row[SHARES])
{
    size_t pair = 0;
    for (size_t i = 0; i < n; i++) {
        for (size_t m = i + 1; m < n; m++) {
            row[i] = (row[i] + r[pair]) % q;
            row[m] = (row[m] + q - r[pair]) % q;
            pair++;
            record(t, pair, i + 1, 4, row[i]);
            record(t, pair, m + 1, 4, row[m]);
        }
    }
}

size_t expect_records(const struct sample_case *c, uint8_t records[STEP_BYTES])
{
    struct trace t = {records, 0};
    uint32_t row[SHARES], totals[SHARES] = {0};
    const uint16_t *r = c->words.at;
    for (; t.bit < 2 * c->k; t.bit++) {
        const uint16_t *string = t.bit < c->k ? c->x.at : c->y.at;
        size_t shift = t.bit % c->k;
        row[0] = string[0] >> shift & 1;
        record(&t, 1, 1, 0, row[0]);
        for (size_t j = 2; j <= c->n; r += j - 1, j++)
            record_round(&t, j, string[j - 1] >> shift & 1, c->q, r, row);
        record_pairs(&t, c->n, c->q, r, row);
        r += c->n * (c->n - 1) / 2;
        for (size_t i = 0; i < c->n; i++)
            totals[i] = (totals[i] + (t.bit < c->k ? row[i] : c->q - row[i])) % c->q;
        record_shares(&t, 0, 5, totals, c->n);
    }
    return (size_t)(t.at - records);
}

void sample_steps(const struct sample_case *c, size_t room, size_t spare, const uint8_t *records, uint16_t shares[SHARES])
{
    static const uint16_t zeros[SHARES];
    bool accepted = c->answer.code == 0;
    lent x = lend(c->x, 0), y = lend(c->y, 0), words = lend(c->words, spare);
    lent out = lend_room(c->out + spare), work = lend_room(c->work + spare), bytes = lend_bytes(NULL, 0, room + spare);
    tp_answer answer = tp_sample_steps(c->n, c->k, c->q, WORDS(x), WORDS(y), WORDS(words), WORDS(out), WORDS(work), bytes.at, bytes.size);
    CHECK(answer.code == c->answer.code);
    CHECK(answer.value == c->answer.value);
    take_back_kept(x);
    take_back_kept(y);
    take_back_kept(words);
    take_back_words(out, shares, accepted ? c->n : 0);
    take_back(work, zeros, accepted ? c->n * sizeof *zeros : 0);
    take_back(bytes, records, accepted ? RECORD * 2 * c->k * (5 * c->n * (c->n + 1) / 2 - 3) : 0);
    check_shares(shares, c->shares);
}

/* A record, from its bit on. */
#define ST(...) 'S', 'T', __VA_ARGS__

/* a: 12 records a bit. x: B is 1 - 5 and 5, and the pair's word 3. y: B is 1 - 10 and 10, C is 1 - 8 and -10, and the pair's word 16. */
static const uint8_t records_a[] = {
    ST(0, 1, 1, 0, 1, 0),  ST(0, 2, 2, 0, 0, 0), ST(0, 2, 1, 1, 13, 0), ST(0, 2, 2, 1, 5, 0),  ST(0, 2, 1, 2, 0, 0),  ST(0, 2, 2, 2, 0, 0),
    ST(0, 2, 1, 3, 13, 0), ST(0, 2, 2, 3, 5, 0), ST(0, 1, 1, 4, 16, 0), ST(0, 1, 2, 4, 2, 0),  ST(0, 0, 1, 5, 16, 0), ST(0, 0, 2, 5, 2, 0),
    ST(1, 1, 1, 0, 1, 0),  ST(1, 2, 2, 0, 1, 0), ST(1, 2, 1, 1, 8, 0),  ST(1, 2, 2, 1, 10, 0), ST(1, 2, 1, 2, 8, 0),  ST(1, 2, 2, 2, 10, 0),
    ST(1, 2, 1, 3, 10, 0), ST(1, 2, 2, 3, 7, 0), ST(1, 1, 1, 4, 9, 0),  ST(1, 1, 2, 4, 8, 0),  ST(1, 0, 1, 5, 7, 0),  ST(1, 0, 2, 5, 11, 0),
};

/* d: 27 records a bit. x, round 2: B is 1 - 1 and 1. Round 3: B is 0 - 2, 1 - 3 and 2 + 3, C is 1 - 15, -15 and -5. Pairs: the words 4, 5, 6. */
static const uint8_t records_d[] = {
    ST(0, 1, 1, 0, 1, 0),  ST(0, 2, 2, 0, 0, 0),  ST(0, 2, 1, 1, 0, 0),  ST(0, 2, 2, 1, 1, 0),  ST(0, 2, 1, 2, 0, 0),  ST(0, 2, 2, 2, 0, 0),
    ST(0, 2, 1, 3, 0, 0),  ST(0, 2, 2, 3, 1, 0),  ST(0, 3, 3, 0, 1, 0),  ST(0, 3, 1, 1, 15, 0), ST(0, 3, 2, 1, 15, 0), ST(0, 3, 3, 1, 5, 0),
    ST(0, 3, 1, 2, 15, 0), ST(0, 3, 2, 2, 15, 0), ST(0, 3, 3, 2, 5, 0),  ST(0, 3, 1, 3, 3, 0),  ST(0, 3, 2, 3, 2, 0),  ST(0, 3, 3, 3, 12, 0),
    ST(0, 1, 1, 4, 7, 0),  ST(0, 1, 2, 4, 15, 0), ST(0, 2, 1, 4, 12, 0), ST(0, 2, 3, 4, 7, 0),  ST(0, 3, 2, 4, 4, 0),  ST(0, 3, 3, 4, 1, 0),
    ST(0, 0, 1, 5, 12, 0), ST(0, 0, 2, 5, 4, 0),  ST(0, 0, 3, 5, 1, 0),  ST(1, 1, 1, 0, 0, 0),  ST(1, 2, 2, 0, 0, 0),  ST(1, 2, 1, 1, 0, 0),
    ST(1, 2, 2, 1, 0, 0),  ST(1, 2, 1, 2, 0, 0),  ST(1, 2, 2, 2, 0, 0),  ST(1, 2, 1, 3, 0, 0),  ST(1, 2, 2, 3, 0, 0),  ST(1, 3, 3, 0, 0, 0),
    ST(1, 3, 1, 1, 0, 0),  ST(1, 3, 2, 1, 0, 0),  ST(1, 3, 3, 1, 0, 0),  ST(1, 3, 1, 2, 0, 0),  ST(1, 3, 2, 2, 0, 0),  ST(1, 3, 3, 2, 0, 0),
    ST(1, 3, 1, 3, 0, 0),  ST(1, 3, 2, 3, 0, 0),  ST(1, 3, 3, 3, 0, 0),  ST(1, 1, 1, 4, 0, 0),  ST(1, 1, 2, 4, 0, 0),  ST(1, 2, 1, 4, 0, 0),
    ST(1, 2, 3, 4, 0, 0),  ST(1, 3, 2, 4, 0, 0),  ST(1, 3, 3, 4, 0, 0),  ST(1, 0, 1, 5, 12, 0), ST(1, 0, 2, 5, 4, 0),  ST(1, 0, 3, 5, 1, 0),
};

/* q 65535, so that values have two bytes. x: B is 1 - 65534 and 65534, C is 1 - 2 and -65534, and the pair's word 65534. y: B is -258 and 258. */
static const uint8_t records_high[] = {
    ST(0, 1, 1, 0, 1, 0),     ST(0, 2, 2, 0, 1, 0),     ST(0, 2, 1, 1, 2, 0), ST(0, 2, 2, 1, 254, 255), ST(0, 2, 1, 2, 2, 0),
    ST(0, 2, 2, 2, 254, 255), ST(0, 2, 1, 3, 254, 255), ST(0, 2, 2, 3, 1, 0), ST(0, 1, 1, 4, 253, 255), ST(0, 1, 2, 4, 2, 0),
    ST(0, 0, 1, 5, 253, 255), ST(0, 0, 2, 5, 2, 0),     ST(1, 1, 1, 0, 0, 0), ST(1, 2, 2, 0, 0, 0),     ST(1, 2, 1, 1, 253, 254),
    ST(1, 2, 2, 1, 2, 1),     ST(1, 2, 1, 2, 0, 0),     ST(1, 2, 2, 2, 0, 0), ST(1, 2, 1, 3, 253, 254), ST(1, 2, 2, 3, 2, 1),
    ST(1, 1, 1, 4, 253, 254), ST(1, 1, 2, 4, 2, 1),     ST(1, 0, 1, 5, 0, 1), ST(1, 0, 2, 5, 255, 254),
};

/* The steps say the same as what is written out. */
static void records_written(void)
{
    const struct sample_case cases[] = {
        CASE(2, 1, 17, LIST(1, 0), LIST(1, 1), LIST(5, 3, 10, 16), 2, 2, {0, 4}, LIST(7, 11)), /* a */
        CASE(3, 1, 17, LIST(1, 0, 1), LIST(0, 0, 0), LIST(1, 2, 3, 4, 5, 6, 0, 0, 0, 0, 0, 0), 3, 3, {0, 12}, LIST(12, 4, 1)), /* d */
        CASE(2, 1, 65535, LIST(1, 1), LIST(0, 0), LIST(65534, 65534, 258, 0), 2, 2, {0, 4}, LIST(256, 65279)),
    };
    const uint8_t *const records[] = {records_a, records_d, records_high};
    const size_t sizes[] = {sizeof records_a, sizeof records_d, sizeof records_high};
    static uint8_t expected[STEP_BYTES];
    for (size_t i = 0; i < COUNT(cases); i++) {
        uint16_t shares[SHARES];
        BEGIN_CASE(&cases[i]);
        CHECK(expect_records(&cases[i], expected) == sizes[i] && equal(expected, records[i], sizes[i]));
        sample_steps(&cases[i], sizes[i], 0, records[i], shares);
        sample_steps(&cases[i], sizes[i], SPARE, records[i], shares);
        sample_steps(&cases[i], sizes[i] + RECORD, 0, records[i], shares);
    }
}

static struct sample_case case_of(const struct input *in, const uint16_t shares[SHARES])
{
    size_t n = in->n, used = 2 * in->k * n * (n - 1);
    return (struct sample_case)CASE(n, in->k, in->q, {in->x, n}, {in->y, n}, {in->words, used}, n, n, {0, used}, {shares, n});
}

/* The output, which the last n records show. */
static void read_shares(const uint8_t *records, size_t size, size_t n, uint16_t shares[SHARES])
{
    for (size_t i = 0; i < n; i++) {
        const uint8_t *last = records + size - (n - i) * RECORD;
        shares[i] = (uint16_t)(last[6] + 256 * last[7]);
    }
}

/* Output and work area are as tp_sample leaves them. */
static void step_input(const struct input *in, size_t spare)
{
    static uint8_t records[STEP_BYTES];
    uint16_t sampled[SHARES], shares[SHARES];
    begin_case(__FILE__, __LINE__);
    struct sample_case c = case_of(in, sampled);
    size_t size = expect_records(&c, records);
    read_shares(records, size, in->n, sampled);
    sample(&c, FRONT, spare, shares);
    sample_steps(&c, size, spare, records, shares);
}

static void draw_input(struct input *in)
{
    draw(in->x, in->n, 1u << in->k);
    draw(in->y, in->n, 1u << in->k);
    draw(in->words, 2 * in->k * in->n * (in->n - 1), in->q);
}

/* The least modulus, an even one, published ones and the largest. With any input, and with the largest of all. */
static void step_everywhere(size_t n, size_t k)
{
    static struct input in;
    const uint16_t moduli[] = {(uint16_t)(2 * k + 1), (uint16_t)(2 * k + 2), 3329, 12289, 65535, (uint16_t)(random_below(60000) + 33)};
    in.n = n, in.k = k;
    for (size_t i = 0; i < COUNT(moduli); i++) {
        in.q = moduli[i];
        draw_input(&in);
        step_input(&in, (i + n) % 2 * RECORD + i % 3);
    }
    in.q = moduli[(n + k) % COUNT(moduli)];
    for (size_t i = 0; i < n; i++)
        in.x[i] = in.y[i] = (uint16_t)((1u << k) - 1);
    for (size_t i = 0; i < 2 * k * n * (n - 1); i++)
        in.words[i] = in.q - 1;
    step_input(&in, 0);
}

/* The bytes end where memory does. */
static void *lend_edge(unsigned char **edge, const void *bytes, size_t size)
{
    if (*edge == NULL)
        *edge = map_edge(STEP_BYTES);
    return memcpy(*edge - size, bytes, size);
}

/* A little longer than needed, or so long that the length has no low bits. */
static size_t longer(size_t len, size_t k)
{
    return k % 2 == 0 ? len + SPARE : (size_t)1 << 32;
}

/* Behind the words that a call takes, and the places that it writes, the lists go on where nothing can be read or written. */
static void step_at_edge(size_t n, size_t k, uint16_t q)
{
    static unsigned char *edges[6];
    static struct input in;
    static uint8_t expected[STEP_BYTES];
    in.n = n, in.k = k, in.q = q;
    draw_input(&in);
    begin_case(__FILE__, __LINE__);
    struct sample_case c = case_of(&in, NULL);
    uint16_t shares[SHARES];
    size_t size = expect_records(&c, expected), word = sizeof *in.words, used = c.words.len;
    read_shares(expected, size, n, shares);
    uint16_t *x = lend_edge(&edges[0], in.x, n * word), *y = lend_edge(&edges[1], in.y, n * word);
    uint16_t *words = lend_edge(&edges[2], in.words, used * word);
    uint16_t *out = lend_edge(&edges[3], in.words, n * word), *work = lend_edge(&edges[4], in.words, n * word);
    uint8_t *records = memset(lend_edge(&edges[5], expected, size), 0xFF, size);
    tp_answer answer = tp_sample_steps(n, k, q, x, n, y, n, words, longer(used, k), out, longer(n, k), work, longer(n, k), records, longer(size, k));
    CHECK(answer.code == TP_ACCEPTED && answer.value == used);
    CHECK(equal(records, expected, size));
    CHECK(equal(out, shares, n * word) && equal(work, (const uint16_t[SHARES]){0}, n * word));
    CHECK(equal(x, in.x, n * word) && equal(y, in.y, n * word) && equal(words, in.words, used * word));
}

/* Bytes may begin anywhere. */
static void step_unaligned(size_t n, size_t k, uint16_t q)
{
    static struct input in;
    static uint8_t expected[STEP_BYTES], bytes[RECORD + STEP_BYTES];
    in.n = n, in.k = k, in.q = q;
    draw_input(&in);
    begin_case(__FILE__, __LINE__);
    struct sample_case c = case_of(&in, NULL);
    size_t size = expect_records(&c, expected);
    for (size_t before = 1; before < RECORD; before++) {
        uint16_t out[SHARES], work[SHARES];
        memset(bytes, 0xFF, sizeof bytes);
        tp_answer answer = tp_sample_steps(n, k, q, in.x, n, in.y, n, in.words, c.words.len, out, n, work, n, bytes + before, size);
        CHECK(answer.code == TP_ACCEPTED && answer.value == c.words.len);
        CHECK(bytes[before - 1] == 0xFF && equal(bytes + before, expected, size) && bytes[before + size] == 0xFF);
    }
}

void step_cases(void)
{
    static const uint16_t moduli[] = {33, 3329, 8192, 12289, 65535};
    records_written();
    for (size_t n = 2; n <= SHARES; n++) {
        for (size_t k = 1; k <= BITS; k++) {
            step_everywhere(n, k);
            step_at_edge(n, k, moduli[(n + k) % COUNT(moduli)]);
        }
        step_unaligned(n, n, 12289);
    }
}
