/* The header's limits and sizes: what they name is accepted, and one more or less is refused. */
#include "client.h"

#include <stdlib.h>
#include <string.h>

static const uint16_t zeros[TP_POLYNOMIAL_WORDS(TP_MAX_SHARES, TP_MAX_BITS, TP_MAX_COEFFICIENTS)];

/* A sample of zeros. */
static void sample_zeros(size_t n, size_t k, size_t words, size_t start, size_t work, tp_answer answer)
{
    uint16_t shares[SHARES];
    struct sample_case c = CASE(n, k, 65535, {zeros, n}, {zeros, n}, {zeros, words}, n, work, answer, NONE);
    sample(&c, (origin){0, start}, 0, shares);
}

static void sample_sizes(size_t n, size_t k)
{
    size_t words = TP_SAMPLE_WORDS(n, k), work = TP_SAMPLE_WORK(n);
    CHECK(words <= TP_MAX_WORDS);
    for (size_t start = 0; start <= words; start += words) {
        sample_zeros(n, k, start + words, start, work, (tp_answer){TP_ACCEPTED, start + words});
        sample_zeros(n, k, start + words - 1, start, work, (tp_answer){TP_WORD_COUNT, 0});
        sample_zeros(n, k, start + words, start, work - 1, (tp_answer){TP_WORK_ROOM, 0});
    }
}

/* The same with step records. */
static void step_zeros(size_t n, size_t k, size_t words, size_t work, size_t room, tp_answer answer)
{
    static uint8_t records[STEP_BYTES];
    uint16_t shares[SHARES];
    struct sample_case c = CASE(n, k, 65535, {zeros, n}, {zeros, n}, {zeros, words}, n, work, answer, NONE);
    if (answer.code == TP_ACCEPTED)
        expect_records(&c, records);
    sample_steps(&c, room, 0, records, shares);
}

static void step_sizes(size_t n, size_t k)
{
    size_t words = TP_SAMPLE_WORDS(n, k), work = TP_SAMPLE_WORK(n), room = TP_STEP_BYTES(n, k);
    CHECK(room == 8 * TP_STEP_RECORDS(n, k));
    step_zeros(n, k, words, work, room, (tp_answer){TP_ACCEPTED, words});
    step_zeros(n, k, words, work, room - 1, (tp_answer){TP_RECORD_ROOM, 0});
    step_zeros(n, k, words, work - 1, room, (tp_answer){TP_WORK_ROOM, 0});
    step_zeros(n, k, words - 1, work, room, (tp_answer){TP_WORD_COUNT, 0});
}

/* A polynomial of zeros. */
static void polynomial_zeros(size_t n, size_t k, size_t m, size_t shares, size_t words, size_t out, size_t work, tp_answer answer)
{
    static uint16_t made[TP_POLYNOMIAL_SHARES(TP_MAX_SHARES, TP_MAX_COEFFICIENTS)];
    struct sample_case c = CASE(n, k, 65535, {zeros, shares}, {zeros, shares}, {zeros, words}, out, work, answer, NONE);
    sample_polynomial(m, &c, 0, made);
}

static void polynomial_sizes(size_t n, size_t k, size_t m)
{
    size_t shares = TP_POLYNOMIAL_SHARES(n, m), words = TP_POLYNOMIAL_WORDS(n, k, m), work = TP_SAMPLE_WORK(n);
    polynomial_zeros(n, k, m, shares, words, shares, work, (tp_answer){TP_ACCEPTED, words});
    polynomial_zeros(n, k, m, shares - 1, words, shares, work, (tp_answer){TP_X_COUNT, 0});
    polynomial_zeros(n, k, m, shares + 1, words, shares, work, (tp_answer){TP_X_COUNT, 0});
    polynomial_zeros(n, k, m, shares, words - 1, shares, work, (tp_answer){TP_WORD_COUNT, 0});
    polynomial_zeros(n, k, m, shares, words, shares - 1, work, (tp_answer){TP_OUTPUT_ROOM, 0});
    polynomial_zeros(n, k, m, shares, words, shares, work - 1, (tp_answer){TP_WORK_ROOM, 0});
}

static void step_unfit(size_t n, size_t k, uint32_t code)
{
    step_zeros(n, k, TP_MAX_WORDS, TP_SAMPLE_WORK(n), TP_STEP_BYTES(n, k), (tp_answer){code, 0});
}

static void polynomial_unfit(size_t m)
{
    size_t shares = TP_POLYNOMIAL_SHARES(2, m);
    polynomial_zeros(2, 1, m, shares, TP_POLYNOMIAL_WORDS(2, 1, m), shares, TP_SAMPLE_WORK(2), (tp_answer){TP_COEFFICIENT_COUNT, 0});
}

/* Noise of zeros. */
static void noise_zeros(size_t n, size_t set, size_t bytes, size_t x, size_t y, tp_answer answer)
{
    split_noise(&(struct noise_case)CASE(n, set, (const uint8_t *)zeros, bytes, x, y, answer, zeros, zeros));
}

static void noise_sizes(size_t n, size_t set)
{
    size_t bytes = TP_NOISE_BYTES(n, tp_parameter_set(set).k), shares = TP_NOISE_SHARES(n);
    CHECK(shares == TP_POLYNOMIAL_SHARES(n, TP_MAX_COEFFICIENTS));
    noise_zeros(n, set, bytes, shares, shares, (tp_answer){TP_ACCEPTED, shares});
    noise_zeros(n, set, bytes - 1, shares, shares, (tp_answer){TP_NOISE_LENGTH, 0});
    noise_zeros(n, set, bytes + 1, shares, shares, (tp_answer){TP_NOISE_LENGTH, 0});
    noise_zeros(n, set, bytes, shares - 1, shares, (tp_answer){TP_OUTPUT_ROOM, 0});
    noise_zeros(n, set, bytes, shares, shares - 1, (tp_answer){TP_OUTPUT_ROOM, 0});
}

static void noise_unfit(size_t n, size_t set, uint32_t code)
{
    size_t shares = TP_NOISE_SHARES(n);
    noise_zeros(n, set, TP_NOISE_BYTES(n, 2), shares, shares, (tp_answer){code, 0});
}

static void convert_sizes(size_t n)
{
    uint16_t out[TP_MAX_SHARES];
    for (size_t start = 0; start <= TP_BIT_WORDS(n); start++) {
        size_t end = start + TP_BIT_WORDS(n);
        tp_answer enough = tp_convert_bit(n, 3, zeros, n, zeros, end, start, out, n);
        tp_answer fewer = tp_convert_bit(n, 3, zeros, n, zeros, end - 1, start, out, n);
        CHECK(enough.code == TP_ACCEPTED && enough.value == end);
        CHECK(fewer.code == TP_WORD_COUNT && fewer.value == 0);
    }
}

/* A string of zeros. */
static void value_zeros(size_t n, size_t k, size_t words, size_t out, tp_answer answer)
{
    uint16_t shares[SHARES];
    struct value_case c = CASE(n, k, 3, {zeros, n}, {zeros, words}, out, answer, NONE);
    convert_value(&c, 0, shares);
}

static void value_sizes(size_t n, size_t k)
{
    size_t words = TP_VALUE_WORDS(n, k);
    CHECK(2 * words == TP_SAMPLE_WORDS(n, k));
    value_zeros(n, k, words, n, (tp_answer){TP_ACCEPTED, words});
    value_zeros(n, k, words + 1, n + 1, (tp_answer){TP_ACCEPTED, words});
    value_zeros(n, k, words - 1, n, (tp_answer){TP_WORD_COUNT, 0});
    value_zeros(n, k, words, n - 1, (tp_answer){TP_OUTPUT_ROOM, 0});
}

static void all_sizes(void)
{
    for (size_t n = TP_MIN_SHARES; n <= TP_MAX_SHARES; n++) {
        convert_sizes(n);
        noise_sizes(n, 1);
        noise_sizes(n, 2);
        for (size_t k = TP_MIN_BITS; k <= TP_MAX_BITS; k++) {
            value_sizes(n, k);
            sample_sizes(n, k);
            step_sizes(n, k);
            polynomial_sizes(n, k, TP_MIN_COEFFICIENTS + (n + k) % 3);
        }
    }
    polynomial_sizes(TP_MAX_SHARES, TP_MAX_BITS, TP_MAX_COEFFICIENTS);
}

static void limits(void)
{
    size_t work = TP_SAMPLE_WORK(TP_MAX_SHARES + 1);
    CHECK(TP_SAMPLE_WORDS(TP_MAX_SHARES, TP_MAX_BITS) == TP_MAX_WORDS);
    CHECK(TP_BIT_WORDS(1 + 2) == 6 && TP_SAMPLE_WORDS(1 + 1, 1 + 2) == 12 && 2 * TP_SAMPLE_WORK(1 + 1) == 4 && TP_TEXT_ROOM(1 + 1) == 51);
    CHECK(TP_POLYNOMIAL_SHARES(1 + 1, 1 + 2) == 6 && TP_POLYNOMIAL_WORDS(1 + 1, 1 + 2, 1 + 1) == 24);
    CHECK(TP_NOISE_BYTES(1 + 1, 1 + 2) == 384 && TP_NOISE_SHARES(1 + 1) == 512);
    CHECK(TP_VALUE_WORDS(1 + 2, 1 + 1) == 12 && 12 / TP_VALUE_WORDS(1 + 1, 1 + 2) == 2);
    CHECK(TP_STEP_RECORDS(TP_MAX_SHARES, TP_MAX_BITS) == 5664 && TP_STEP_RECORDS(TP_MIN_SHARES, TP_MIN_BITS) == 24);
    CHECK(TP_STEP_RECORDS(1 + 2, 1 + 1) == 108 && TP_STEP_BYTES(1 + 1, 1 + 2) == 576 && 576 / TP_STEP_BYTES(1 + 1, 1 + 2) == 1);
    value_zeros(TP_MIN_SHARES - 1, 1, TP_MAX_WORDS, TP_MAX_SHARES, (tp_answer){TP_SHARE_COUNT, 0});
    value_zeros(TP_MAX_SHARES + 1, 1, TP_MAX_WORDS, TP_MAX_SHARES + 1, (tp_answer){TP_SHARE_COUNT, 0});
    value_zeros(2, TP_MIN_BITS - 1, TP_MAX_WORDS, 2, (tp_answer){TP_STRING_LENGTH, 0});
    value_zeros(2, TP_MAX_BITS + 1, TP_MAX_WORDS, 2, (tp_answer){TP_STRING_LENGTH, 0});
    sample_zeros(TP_MIN_SHARES - 1, 1, TP_MAX_WORDS, 0, work, (tp_answer){TP_SHARE_COUNT, 0});
    sample_zeros(TP_MAX_SHARES + 1, 1, TP_MAX_WORDS, 0, work, (tp_answer){TP_SHARE_COUNT, 0});
    sample_zeros(2, TP_MIN_BITS - 1, TP_MAX_WORDS, 0, work, (tp_answer){TP_STRING_LENGTH, 0});
    sample_zeros(2, TP_MAX_BITS + 1, TP_MAX_WORDS, 0, work, (tp_answer){TP_STRING_LENGTH, 0});
    step_unfit(TP_MIN_SHARES - 1, 1, TP_SHARE_COUNT);
    step_unfit(TP_MAX_SHARES + 1, 1, TP_SHARE_COUNT);
    step_unfit(2, TP_MIN_BITS - 1, TP_STRING_LENGTH);
    step_unfit(2, TP_MAX_BITS + 1, TP_STRING_LENGTH);
    polynomial_unfit(TP_MIN_COEFFICIENTS - 1);
    polynomial_unfit(TP_MAX_COEFFICIENTS + 1);
    noise_unfit(TP_MIN_SHARES - 1, 1, TP_SHARE_COUNT);
    noise_unfit(TP_MAX_SHARES + 1, 1, TP_SHARE_COUNT);
    noise_unfit(2, 0, TP_SET_NUMBER);
    noise_unfit(2, 3, TP_NOISE_SET);
}

/* The text of a file of so many zero bytes ends in this line. With one byte, or one word, less of room the call is refused. */
static void text_of_zeros(text_call *call, size_t len, size_t room, const char *line)
{
    size_t line_len = strlen(line);
    uint8_t *file = calloc(len + 1, 1), *text = malloc(room);
    uint16_t words[TP_MAX_WORDS];
    tp_answer answer = call(file, len, words, TP_MAX_WORDS, text, room);
    tp_answer less_room = call(file, len, words, TP_MAX_WORDS, text, room - 1);
    tp_answer fewer_words = call(file, len, words, TP_MAX_WORDS - 1, text, room);
    CHECK(answer.code == TP_ACCEPTED && equal(text + answer.value - line_len, line, line_len));
    CHECK(less_room.code == TP_OUTPUT_ROOM);
    CHECK(fewer_words.code == TP_WORD_COUNT);
    free(file);
    free(text);
}

static void texts_of_zeros(size_t len, const char *line, const char *report_line)
{
    text_of_zeros(tp_lesson_text, len, TP_TEXT_ROOM(len), line);
    text_of_zeros(tp_report_text, len, TP_REPORT_ROOM, report_line);
}

void size_cases(void)
{
    begin_case(__FILE__, __LINE__);
    all_sizes();
    limits();
    texts_of_zeros(0, "shares\n", "0 0 0\n");
    texts_of_zeros(1, "refused 19 0\n", "refused 19 0\n");
    texts_of_zeros(2, "refused 18 0\n", "refused 18 0\n");
    texts_of_zeros(TP_MAX_FILE, "refused 18 0\n", "refused 18 0\n");
    texts_of_zeros(TP_MAX_FILE + 1, "refused 21 0\n", "refused 21 0\n");
}
