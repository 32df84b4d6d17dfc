/* The groups of cases, and the calls whose output later calls take. */
#ifndef CLIENT_H
#define CLIENT_H

#include "lend.h"
#include "tinplateau.h"

enum { SPARE = 3, SHARES = 8, BITS = 16, COEFFICIENTS = 256, VALUE_WORDS = BITS * SHARES * (SHARES - 1), SAMPLE_WORDS = 2 * VALUE_WORDS };
enum { RECORD = 8, BIT_RECORDS = 5 * SHARES * (SHARES + 1) / 2 - 3, STEP_BYTES = RECORD * 2 * BITS * BIT_RECORDS };

/* A call of tp_mask and what it is to answer. */
struct mask_case {
    int line;
    size_t n, k;
    uint16_t value;
    list masks;
    size_t out;
    tp_answer answer;
    list shares;
};

/* A call of tp_convert_bit and what it is to answer. */
struct bit_case {
    int line;
    size_t n;
    uint16_t q;
    list bits, words;
    size_t out;
    tp_answer answer;
    list shares;
};

/* A call of tp_convert_value and what it is to answer. */
struct value_case {
    int line;
    size_t n, k;
    uint16_t q;
    list boolean, words;
    size_t out;
    tp_answer answer;
    list shares;
};

/* A call of tp_sample, of tp_sample_polynomial or of tp_sample_steps, and what it is to answer. */
struct sample_case {
    int line;
    size_t n, k;
    uint16_t q;
    list x, y, words;
    size_t out, work;
    tp_answer answer;
    list shares;
};

/* A call of tp_split_noise, with so many words in x and y, and what it is to answer and write. Bytes that are NULL are not given. */
struct noise_case {
    int line;
    size_t n, set;
    const uint8_t *bytes;
    size_t len, x, y;
    tp_answer answer;
    const uint16_t *x_shares, *y_shares;
};

/* A call that writes a text of a lesson file. */
typedef tp_answer text_call(const uint8_t *file, size_t file_len, uint16_t *words, size_t words_len, uint8_t *text, size_t text_len);

/* Where a call starts in the word list, and how many other words stand before those of the case, whose answer does not count them. */
typedef struct {
    size_t others, start;
} origin;

#define FRONT ((origin){0, 0})
#define WITHIN ((origin){SPARE, SPARE})

/* Make the call, with spare places behind what it uses, and check the answer, every buffer, and the shares if they are given. The shares
 * that an accepted call makes are copied. A call that starts somewhere answers where the next one may start. */
void mask(const struct mask_case *c, size_t spare, uint16_t shares[SHARES]);
size_t convert_bit(const struct bit_case *c, origin from, size_t spare, uint16_t shares[SHARES]);
void convert_value(const struct value_case *c, size_t spare, uint16_t shares[SHARES]);
size_t sample(const struct sample_case *c, origin from, size_t spare, uint16_t shares[SHARES]);
void sample_polynomial(size_t m, const struct sample_case *c, size_t spare, uint16_t *shares);
/* The same with this content in front of the work area. With no number of coefficients it is one sample. A polynomial starts at the front. */
size_t call_sampler(const size_t *m, const struct sample_case *c, origin from, size_t spare, list before, uint16_t *shares);
/* The same with tp_sample_steps, which has so many bytes for the records. Those of an accepted call are given. */
void sample_steps(const struct sample_case *c, size_t room, size_t spare, const uint8_t *records, uint16_t shares[SHARES]);
/* The same with what the case has room for. The shares are given. */
void split_noise(const struct noise_case *c);

/* Opens n shares, which are fit for it. */
tp_string open_string(size_t n, size_t k, const uint16_t *shares);
tp_residue open_residue(size_t n, uint16_t q, const uint16_t *shares);

/* The row of a bit whose shares are b, with the words from r on, by the written steps. */
void convert_row(size_t n, uint32_t q, const uint16_t *b, const uint16_t *r, uint32_t row[SHARES]);

/* The records of a call that is accepted, by the written steps. Answers their bytes. */
size_t expect_records(const struct sample_case *c, uint8_t records[STEP_BYTES]);

/* The shares begin with those expected. */
void check_shares(const uint16_t *shares, list expected);

/* All that is answered is as expected. */
void check_signed(tp_signed answer, tp_signed expected);

/* Numbers below the bound. */
void draw(uint16_t *numbers, size_t count, uint32_t bound);

void masking_cases(void);
void centring_cases(void);
void conversion_cases(void);
void value_cases(void);
void value_refusals(void);
void sampler_cases(void);
void start_cases(void);
void step_cases(void);
void step_refusals(void);
void polynomial_cases(void);
void area_cases(void);
void noise_cases(void);
void lesson_cases(void);
void size_cases(void);

#endif
