/* The conversion of a bit, and the sampler. */
#include "client.h"

/* An end and the position of a word count from the front of the list. */
static void check_answer(tp_answer answer, tp_answer expected, origin from)
{
    bool counts_words = expected.code == TP_ACCEPTED || expected.code == TP_WORD_RANGE;
    CHECK(answer.code == expected.code);
    CHECK(answer.value == expected.value + (counts_words ? from.others : 0));
}

/* Whether the call is refused before its start is asked about. */
static bool ends_before_start(tp_answer expected)
{
    return expected.code != TP_ACCEPTED && expected.code < TP_WORD_COUNT;
}

size_t convert_bit(const struct bit_case *c, origin from, size_t spare, uint16_t shares[SHARES])
{
    lent bits = lend(c->bits, 0), words = lend_within(from.others, c->words, spare), out = lend_room(c->out + spare);
    tp_answer answer = tp_convert_bit(c->n, c->q, WORDS(bits), WORDS(words), from.start, WORDS(out));
    check_answer(answer, c->answer, from);
    take_back_kept(bits);
    take_back_kept(words);
    take_back_words(out, shares, c->answer.code == 0 ? c->n : 0);
    check_shares(shares, c->shares);
    return answer.value;
}

static void convert_all(const struct bit_case *cases, size_t count)
{
    for (size_t i = 0; i < count; i++) {
        uint16_t shares[SHARES];
        BEGIN_CASE(&cases[i]);
        convert_bit(&cases[i], FRONT, 0, shares);
        convert_bit(&cases[i], WITHIN, 0, shares);
        if (cases[i].answer.code == 0) {
            convert_bit(&cases[i], FRONT, SPARE, shares);
            convert_bit(&cases[i], WITHIN, SPARE, shares);
        } else if (ends_before_start(cases[i].answer))
            convert_bit(&cases[i], (origin){0, SIZE_MAX}, 0, shares);
    }
}

/* The bits of a and d: what x's bit adds to the sample, and y's. */
static void bit_accepted(void)
{
    const struct bit_case cases[] = {
        CASE(2, 17, LIST(1, 0), LIST(5, 3), 2, {0, 2}, LIST(16, 2)),
        CASE(2, 17, LIST(1, 1), LIST(10, 16), 2, {0, 2}, LIST(9, 8)),
        CASE(3, 17, LIST(1, 0, 1), LIST(1, 2, 3, 4, 5, 6), 3, {0, 6}, LIST(12, 4, 1)),
        CASE(2, 65535, LIST(1, 1), LIST(65534, 65534), 2, {0, 2}, LIST(65533, 2)),
    };
    convert_all(cases, COUNT(cases));
}

/* For each number one call with nothing else wrong, and one in which all that is asked later is wrong too. So below. */
static void bit_refused(void)
{
    const struct bit_case cases[] = {
        CASE(1, 17, LIST(1), LIST(5, 3), 2, {1, 0}, NONE),
        CASE(9, 17, LIST(1, 0, 1, 0, 1, 0, 1, 0, 1), LIST(5, 3), 9, {1, 0}, NONE),
        CASE(0, 0, NONE, NONE, 0, {1, 0}, NONE),
        CASE(SIZE_MAX, 2, LIST(2), LIST(17), 0, {1, 0}, NONE),
        CASE(2, 2, LIST(1, 0), LIST(1, 1), 2, {3, 0}, NONE),
        CASE(2, 0, NONE, NONE, 0, {3, 0}, NONE),
        CASE(2, 17, LIST(1), LIST(5, 3), 2, {4, 0}, NONE),
        CASE(2, 17, LIST(1, 0, 1), LIST(5, 3), 2, {4, 0}, NONE),
        CASE(2, 17, NONE, NONE, 0, {4, 0}, NONE),
        CASE(2, 17, LIST(2), LIST(17), 0, {4, 0}, NONE),
        CASE(2, 17, LIST(2, 0), LIST(5, 3), 2, {6, 0}, NONE),
        CASE(3, 17, LIST(1, 65535, 2), NONE, 0, {6, 1}, NONE),
        CASE(2, 17, LIST(1, 0), LIST(5), 2, {8, 0}, NONE),
        CASE(3, 17, LIST(1, 0, 1), LIST(17, 2, 3, 4, 5), 0, {8, 0}, NONE),
        CASE(2, 17, LIST(1, 0), LIST(17, 3), 2, {9, 0}, NONE),
        CASE(3, 17, LIST(1, 0, 1), LIST(1, 2, 3, 4, 5, 17), 3, {9, 5}, NONE),
        CASE(3, 17, LIST(1, 0, 1), LIST(1, 2, 3, 65535, 17, 6), 0, {9, 3}, NONE),
        CASE(2, 17, LIST(1, 0), LIST(5, 3), 1, {10, 0}, NONE),
        CASE(2, 17, LIST(1, 0), LIST(5, 3), 0, {10, 0}, NONE),
    };
    convert_all(cases, COUNT(cases));
}

void conversion_cases(void)
{
    bit_accepted();
    bit_refused();
}

size_t call_sampler(const size_t *m, const struct sample_case *c, origin from, size_t spare, list before, uint16_t *shares)
{
    static const uint16_t zeros[SHARES];
    bool accepted = c->answer.code == 0;
    lent x = lend(c->x, 0), y = lend(c->y, 0), words = lend_within(from.others, c->words, spare);
    lent out = lend_room(c->out + spare), work = lend(before, c->work + spare - before.len);
    tp_answer answer = m == NULL ? tp_sample(c->n, c->k, c->q, WORDS(x), WORDS(y), WORDS(words), from.start, WORDS(out), WORDS(work))
                                 : tp_sample_polynomial(c->n, c->k, c->q, *m, WORDS(x), WORDS(y), WORDS(words), WORDS(out), WORDS(work));
    check_answer(answer, c->answer, from);
    take_back_kept(x);
    take_back_kept(y);
    take_back_kept(words);
    take_back_words(out, shares, accepted ? (m == NULL ? 1 : *m) * c->n : 0);
    take_back(work, zeros, accepted ? c->n * sizeof *zeros : 0);
    check_shares(shares, c->shares);
    return answer.value;
}

size_t sample(const struct sample_case *c, origin from, size_t spare, uint16_t shares[SHARES])
{
    return call_sampler(NULL, c, from, spare, (list)NONE, shares);
}

void sample_polynomial(size_t m, const struct sample_case *c, size_t spare, uint16_t *shares)
{
    call_sampler(&m, c, FRONT, spare, (list)NONE, shares);
}

/* Each is a polynomial of one coefficient too. */
static void sample_all(const struct sample_case *cases, size_t count)
{
    for (size_t i = 0; i < count; i++) {
        uint16_t shares[SHARES];
        BEGIN_CASE(&cases[i]);
        sample(&cases[i], FRONT, 0, shares);
        sample(&cases[i], WITHIN, 0, shares);
        sample_polynomial(1, &cases[i], 0, shares);
        if (cases[i].answer.code == 0) {
            sample(&cases[i], FRONT, SPARE, shares);
            sample(&cases[i], WITHIN, SPARE, shares);
            sample_polynomial(1, &cases[i], SPARE, shares);
        } else if (ends_before_start(cases[i].answer))
            sample(&cases[i], (origin){0, SIZE_MAX}, 0, shares);
    }
}

static void sample_accepted(void)
{
    const uint16_t zeros[SAMPLE_WORDS] = {0};
    const struct sample_case cases[] = {
        CASE(2, 1, 17, LIST(1, 0), LIST(1, 1), LIST(5, 3, 10, 16), 2, 2, {0, 4}, LIST(7, 11)), /* a */
        CASE(2, 1, 17, LIST(0, 0), LIST(0, 1), LIST(5, 3, 10, 14), 2, 2, {0, 4}, LIST(7, 9)), /* b */
        CASE(2, 1, 3, LIST(1, 1), LIST(1, 0), LIST(0, 0, 0, 0), 2, 2, {0, 4}, LIST(2, 0)), /* c */
        CASE(3, 1, 17, LIST(1, 0, 1), LIST(0, 0, 0), LIST(1, 2, 3, 4, 5, 6, 0, 0, 0, 0, 0, 0), 3, 3, {0, 12}, LIST(12, 4, 1)), /* d */
        CASE(2, 16, 33, LIST(65535, 0), LIST(0, 0), {zeros, 64}, 2, 2, {0, 64}, LIST(16, 0)), /* h: q 33 passes */
        CASE(2, 16, 33, LIST(0, 0), LIST(65535, 0), {zeros, 64}, 2, 2, {0, 64}, LIST(17, 0)),
        CASE(8, 16, 65535, LIST(65535, 0, 0, 0, 0, 0, 0, 0), LIST(0, 0, 0, 0, 0, 0, 0, 0), {zeros, SAMPLE_WORDS}, 8, 8, {0, SAMPLE_WORDS},
             LIST(16, 0, 0, 0, 0, 0, 0, 0)),
    };
    sample_all(cases, COUNT(cases));
}

/* Checks 1 to 5: the parameters and the lists' lengths. Where n or k is 0 or too large, there are calls whose lists fit it, or what it or kn
 * wraps to. */
static void sample_unfit(void)
{
    const struct sample_case cases[] = {
        CASE(1, 1, 17, LIST(1), LIST(1), LIST(5, 3, 10, 16), 2, 2, {1, 0}, NONE), /* j */
        CASE(9, 1, 17, LIST(1, 0), LIST(1, 1), LIST(5, 3, 10, 16), 9, 9, {1, 0}, NONE),
        CASE(1, 0, 17, LIST(1, 0), LIST(1, 1), LIST(5, 3, 10, 16), 2, 2, {1, 0}, NONE),
        CASE(0, 1, 17, NONE, NONE, NONE, 0, 0, {1, 0}, NONE),
        CASE(((size_t)1 << 32) + 2, 1, 17, LIST(1, 0), LIST(1, 1), LIST(5, 3, 10, 16), 2, 2, {1, 0}, NONE),
        CASE(((size_t)1 << 63) + 2, 1, 17, LIST(1, 0), LIST(1, 1), LIST(5, 3, 10, 16), 2, 2, {1, 0}, NONE),
        CASE(0, 17, 0, NONE, NONE, NONE, 0, 0, {1, 0}, NONE),
        CASE(SIZE_MAX, SIZE_MAX, 2, LIST(2), LIST(2), LIST(17), 0, 0, {1, 0}, NONE),
        CASE(2, 0, 17, LIST(0, 0), LIST(0, 0), LIST(5, 3, 10, 16), 2, 2, {2, 0}, NONE), /* j */
        CASE(2, 17, 65535, LIST(1, 0), LIST(1, 1), LIST(5, 3, 10, 16), 2, 2, {2, 0}, NONE),
        CASE(2, ((size_t)1 << 32) + 1, 17, LIST(1, 0), LIST(1, 1), LIST(5, 3, 10, 16), 2, 2, {2, 0}, NONE),
        CASE(2, ((size_t)1 << 63) + 1, 17, LIST(1, 0), LIST(1, 1), LIST(5, 3, 10, 16), 2, 2, {2, 0}, NONE),
        CASE(2, 0, 17, LIST(0, 0), LIST(0, 0), NONE, 2, 0, {2, 0}, NONE),
        CASE(2, (size_t)1 << 63, 17, LIST(0, 0), LIST(0, 0), NONE, 2, 0, {2, 0}, NONE),
        CASE(2, SIZE_MAX, 0, NONE, NONE, NONE, 0, 0, {2, 0}, NONE),
        CASE(2, 16, 32, LIST(1, 0), LIST(1, 1), LIST(5, 3, 10, 16), 2, 2, {3, 0}, NONE), /* h */
        CASE(2, 1, 2, LIST(1, 0), LIST(1, 1), LIST(0, 1, 0, 1), 2, 2, {3, 0}, NONE),
        CASE(2, 1, 0, NONE, NONE, NONE, 0, 0, {3, 0}, NONE),
        CASE(2, 1, 17, LIST(1), LIST(1, 1), LIST(5, 3, 10, 16), 2, 2, {4, 0}, NONE),
        CASE(2, 1, 17, LIST(1, 0, 1), LIST(1, 1), LIST(5, 3, 10, 16), 2, 2, {4, 0}, NONE),
        CASE(2, 1, 17, NONE, NONE, NONE, 0, 0, {4, 0}, NONE),
        CASE(2, 1, 17, LIST(2), LIST(2), LIST(17), 1, 1, {4, 0}, NONE),
        CASE(2, 1, 17, LIST(1, 0), LIST(1), LIST(5, 3, 10, 16), 2, 2, {5, 0}, NONE),
        CASE(2, 1, 17, LIST(1, 0), LIST(1, 1, 0), LIST(5, 3, 10, 16), 2, 2, {5, 0}, NONE),
        CASE(2, 1, 17, LIST(2, 0), NONE, NONE, 0, 0, {5, 0}, NONE),
        CASE(2, 1, 17, LIST(2, 0), LIST(2), LIST(17), 1, 1, {5, 0}, NONE),
    };
    sample_all(cases, COUNT(cases));
}

/* Checks 6 to 11: the shares, the words and the room. */
static void sample_refused(void)
{
    const struct sample_case cases[] = {
        CASE(2, 1, 17, LIST(2, 0), LIST(1, 1), LIST(5, 3, 10, 16), 2, 2, {6, 0}, NONE), /* j */
        CASE(2, 1, 17, LIST(1, 2), LIST(1, 1), LIST(5, 3, 10, 16), 2, 2, {6, 1}, NONE),
        CASE(3, 15, 31, LIST(0, 32768, 65535), LIST(32768, 0, 0), NONE, 0, 0, {6, 1}, NONE),
        CASE(2, 1, 17, LIST(1, 0), LIST(2, 1), LIST(5, 3, 10, 16), 2, 2, {7, 0}, NONE),
        CASE(2, 1, 17, LIST(1, 0), LIST(1, 65535), LIST(5, 3, 10, 16), 2, 2, {7, 1}, NONE),
        CASE(3, 15, 31, LIST(0, 0, 0), LIST(0, 32768, 65535), NONE, 0, 0, {7, 1}, NONE),
        CASE(2, 1, 17, LIST(1, 0), LIST(1, 1), LIST(5, 3, 10), 2, 2, {8, 0}, NONE), /* j */
        CASE(2, 1, 17, LIST(1, 0), LIST(1, 1), LIST(17, 3, 10), 1, 1, {8, 0}, NONE),
        CASE(2, 1, 17, LIST(1, 0), LIST(1, 1), NONE, 0, 0, {8, 0}, NONE),
        CASE(2, 1, 17, LIST(1, 0), LIST(1, 1), LIST(5, 3, 17, 16), 2, 2, {9, 2}, NONE), /* i */
        CASE(2, 1, 17, LIST(1, 0), LIST(1, 1), LIST(17, 3, 10, 16), 2, 2, {9, 0}, NONE),
        CASE(2, 1, 17, LIST(1, 0), LIST(1, 1), LIST(5, 65535, 17, 17), 0, 0, {9, 1}, NONE),
        CASE(3, 1, 17, LIST(1, 0, 1), LIST(0, 0, 0), LIST(1, 2, 3, 4, 5, 6, 0, 0, 0, 0, 0, 17), 2, 2, {9, 11}, NONE),
        CASE(2, 1, 17, LIST(1, 0), LIST(1, 1), LIST(5, 3, 10, 16), 1, 2, {10, 0}, NONE),
        CASE(2, 1, 17, LIST(1, 0), LIST(1, 1), LIST(5, 3, 10, 16), 1, 1, {10, 0}, NONE),
        CASE(2, 1, 17, LIST(1, 0), LIST(1, 1), LIST(5, 3, 10, 16), 0, 0, {10, 0}, NONE),
        CASE(2, 1, 17, LIST(1, 0), LIST(1, 1), LIST(5, 3, 10, 16), 2, 1, {11, 0}, NONE),
        CASE(2, 1, 17, LIST(1, 0), LIST(1, 1), LIST(5, 3, 10, 16), 2, 0, {11, 0}, NONE),
    };
    sample_all(cases, COUNT(cases));
}

void sampler_cases(void)
{
    sample_accepted();
    sample_unfit();
    sample_refused();
}
