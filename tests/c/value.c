/* The conversion of a string. Beside the reference values, what is expected is worked out by the written steps. */
#include "client.h"

#include <string.h>

/* What a call takes, and the shares that it makes of it. */
struct input {
    size_t n, k;
    uint16_t q;
    uint16_t boolean[SHARES], words[VALUE_WORDS], shares[SHARES];
};

void convert_value(const struct value_case *c, size_t spare, uint16_t shares[SHARES])
{
    lent boolean = lend(c->boolean, 0), words = lend(c->words, spare), out = lend_room(c->out + spare);
    tp_answer answer = tp_convert_value(c->n, c->k, c->q, WORDS(boolean), WORDS(words), WORDS(out));
    CHECK(answer.code == c->answer.code);
    CHECK(answer.value == c->answer.value);
    take_back_kept(boolean);
    take_back_kept(words);
    take_back_words(out, shares, c->answer.code == 0 ? c->n : 0);
    check_shares(shares, c->shares);
}

static void convert_all(const struct value_case *cases, size_t count)
{
    for (size_t i = 0; i < count; i++) {
        uint16_t shares[SHARES];
        BEGIN_CASE(&cases[i]);
        convert_value(&cases[i], 0, shares);
        if (cases[i].answer.code == 0)
            convert_value(&cases[i], SPARE, shares);
    }
}

/* The bits of a and d, in strings; and with words that are 0 strings below, at and above q. */
static void value_accepted(void)
{
    static const uint16_t zeros[VALUE_WORDS];
    const struct value_case cases[] = {
        CASE(2, 1, 17, LIST(1, 0), LIST(5, 3), 2, {0, 2}, LIST(16, 2)),
        CASE(2, 2, 17, LIST(3, 2), LIST(5, 3, 10, 16), 2, {0, 4}, LIST(0, 1)),
        CASE(2, 2, 17, LIST(3, 1), LIST(10, 16, 5, 3), 2, {0, 4}, LIST(7, 12)),
        CASE(3, 2, 17, LIST(1, 0, 1), LIST(1, 2, 3, 4, 5, 6, 0, 0, 0, 0, 0, 0), 3, {0, 12}, LIST(12, 4, 1)),
        CASE(3, 2, 17, LIST(2, 0, 2), LIST(0, 0, 0, 0, 0, 0, 1, 2, 3, 4, 5, 6), 3, {0, 12}, LIST(7, 8, 2)),
        CASE(2, 2, 65535, LIST(3, 3), LIST(65534, 65534, 65534, 65534), 2, {0, 4}, LIST(65529, 6)),
        CASE(2, 2, 3, LIST(2, 0), {zeros, 4}, 2, {0, 4}, LIST(2, 0)),
        CASE(2, 2, 3, LIST(3, 0), {zeros, 4}, 2, {0, 4}, LIST(0, 0)),
        CASE(2, 3, 3, LIST(4, 0), {zeros, 6}, 2, {0, 6}, LIST(1, 0)),
        CASE(2, 16, 3, LIST(65533, 0), {zeros, 32}, 2, {0, 32}, LIST(1, 0)),
        CASE(2, 16, 4, LIST(65535, 0), {zeros, 32}, 2, {0, 32}, LIST(3, 0)),
        CASE(2, 16, 32768, LIST(32768, 0), {zeros, 32}, 2, {0, 32}, LIST(0, 0)),
        CASE(2, 16, 65534, LIST(65535, 0), {zeros, 32}, 2, {0, 32}, LIST(1, 0)),
        CASE(8, 16, 65535, LIST(65535, 0, 0, 0, 0, 0, 0, 0), {zeros, VALUE_WORDS}, 8, {0, VALUE_WORDS}, LIST(0, 0, 0, 0, 0, 0, 0, 0)),
        CASE(8, 16, 65535, LIST(65534, 0, 0, 0, 0, 0, 0, 0), {zeros, VALUE_WORDS}, 8, {0, VALUE_WORDS}, LIST(65534, 0, 0, 0, 0, 0, 0, 0)),
    };
    convert_all(cases, COUNT(cases));
}

static size_t value_words(const struct input *in)
{
    return in->k * in->n * (in->n - 1);
}

/* Share s is the sum over the bits, from 0 up, of share s of bit i times 2 to the power i. */
static void expect_shares(struct input *in)
{
    memset(in->shares, 0, sizeof in->shares);
    for (size_t bit = 0; bit < in->k; bit++) {
        uint16_t bits[SHARES];
        uint32_t row[SHARES];
        for (size_t i = 0; i < in->n; i++)
            bits[i] = in->boolean[i] >> bit & 1;
        convert_row(in->n, in->q, bits, in->words + bit * in->n * (in->n - 1), row);
        for (size_t i = 0; i < in->n; i++)
            in->shares[i] = (uint16_t)((in->shares[i] + (row[i] << bit)) % in->q);
    }
}

static void draw_input(struct input *in)
{
    draw(in->boolean, in->n, 1u << in->k);
    draw(in->words, value_words(in), in->q);
    expect_shares(in);
}

/* The shares are those of the steps, and sum to the string's number. */
static void convert_input(const struct input *in, size_t spare)
{
    size_t used = value_words(in);
    uint16_t shares[SHARES];
    begin_case(__FILE__, __LINE__);
    struct value_case c = CASE(in->n, in->k, in->q, {in->boolean, in->n}, {in->words, used}, in->n, {0, used}, {in->shares, in->n});
    convert_value(&c, spare, shares);
    CHECK(open_residue(in->n, in->q, shares).value == open_string(in->n, in->k, in->boolean).bits % in->q);
}

/* With any words, and with the largest in all places. */
static void convert_with(struct input *in)
{
    size_t used = value_words(in);
    draw(in->words, used, in->q);
    expect_shares(in);
    convert_input(in, SPARE);
    for (size_t i = 0; i < used; i++)
        in->words[i] = in->q - 1;
    expect_shares(in);
    convert_input(in, 0);
}

/* Small and large moduli, powers of two and their neighbours, and moduli around the string's number. */
static void convert_everywhere(size_t n, size_t k)
{
    static struct input in;
    in.n = n, in.k = k;
    draw(in.boolean, n, 1u << k);
    uint32_t limit = 1u << k, number = open_string(n, k, in.boolean).bits;
    const uint32_t moduli[] = {3, 4, 5, 7, 16, 17, 256, 3329, 4096, 8192, 12289, 32767, 32768, 32769, 65534, 65535, random_below(65533) + 3u,
                               limit / 2, limit - 1, limit, limit + 1, number / 2, number - 1, number, number + 1};
    for (size_t i = 0; i < COUNT(moduli); i++) {
        if (moduli[i] < 3 || moduli[i] > 65535)
            continue;
        in.q = (uint16_t)moduli[i];
        convert_with(&in);
    }
    for (size_t i = 0; i < n; i++)
        in.boolean[i] = (uint16_t)(limit - 1);
    convert_with(&in);
}

/* The same is made of what tp_convert_bit makes of the bits, one after the other. */
static void convert_bits(size_t n, size_t k, uint16_t q)
{
    static struct input in;
    uint16_t sums[SHARES] = {0}, shares[SHARES];
    size_t at = 0;
    in.n = n, in.k = k, in.q = q;
    draw_input(&in);
    begin_case(__FILE__, __LINE__);
    for (size_t bit = 0; bit < k; bit++) {
        uint16_t bits[SHARES], row[SHARES];
        for (size_t i = 0; i < n; i++)
            bits[i] = in.boolean[i] >> bit & 1;
        struct bit_case c = CASE(n, q, {bits, n}, {in.words, value_words(&in)}, n, {0, (bit + 1) * n * (n - 1)}, NONE);
        at = convert_bit(&c, (origin){0, at}, SPARE, row);
        for (size_t i = 0; i < n; i++)
            sums[i] = (uint16_t)((sums[i] + ((uint32_t)row[i] << bit)) % q);
    }
    struct value_case c = CASE(n, k, q, {in.boolean, n}, {in.words, value_words(&in)}, n, {0, at}, {sums, n});
    convert_value(&c, SPARE, shares);
}

/* The words end where memory does. */
static uint16_t *lend_edge(uint16_t **edge, const uint16_t *words, size_t len)
{
    if (*edge == NULL)
        *edge = map_edge(VALUE_WORDS * sizeof *words);
    return memcpy(*edge - len, words, len * sizeof *words);
}

/* Behind the words that a call takes, and the places that it writes, the lists go on where nothing can be read or written. */
static void convert_at_edge(size_t n, size_t k, uint16_t q)
{
    static uint16_t *edges[3];
    static struct input in;
    in.n = n, in.k = k, in.q = q;
    draw_input(&in);
    begin_case(__FILE__, __LINE__);
    size_t used = value_words(&in);
    uint16_t *boolean = lend_edge(&edges[0], in.boolean, n), *words = lend_edge(&edges[1], in.words, used);
    uint16_t *out = lend_edge(&edges[2], in.words, n);
    tp_answer answer = tp_convert_value(n, k, q, boolean, n, words, used + SPARE, out, n + SPARE);
    CHECK(answer.code == TP_ACCEPTED && answer.value == used);
    check_shares(out, (list){in.shares, n});
    CHECK(equal(boolean, in.boolean, n * sizeof *boolean) && equal(words, in.words, used * sizeof *words));
}

/* Words and output whose lengths have more than 16 bits. */
static void long_lists(void)
{
    enum { LONG = 65536 };
    static const uint16_t zeros[LONG];
    const struct value_case c = CASE(2, 16, 17, LIST(65534, 0), {zeros, LONG}, LONG, {0, 32}, LIST(16, 0));
    convert_all(&c, 1);
}

void value_cases(void)
{
    static const uint16_t moduli[] = {3, 4, 3329, 12289, 32768, 65535};
    value_accepted();
    long_lists();
    for (size_t n = 2; n <= SHARES; n++) {
        for (size_t k = 1; k <= BITS; k++) {
            uint16_t q = moduli[(n + k) % COUNT(moduli)];
            convert_everywhere(n, k);
            convert_bits(n, k, q);
            convert_at_edge(n, k, q);
        }
        for (size_t i = 0; i < COUNT(moduli); i++)
            convert_bits(n, 1, moduli[i]);
    }
}
