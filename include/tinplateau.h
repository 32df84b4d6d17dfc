/* Tinplateau: masked binomial sampling. What each function answers is proved about its code (docs/CONTRACTS.md).
 *
 * Every call answers a code: 0 where it is accepted, else the number of the first check that failed (enum tp_code; the project's docs/LESSONS.md
 * says what to do about each). With it goes the position of what is unfit, counted from 0, where a position is named below, and else 0. A refused call
 * changes nothing.
 *
 * A list is a pointer and its number of elements; with 0 elements the pointer is not used. The caller sees to it that each list is there,
 * and that one which is not const may be written and overlaps no other list of the call.
 *
 * n is the number of shares, 2 to 8; k the number of bits in a string, 1 to 16; q the modulus; m the number of a polynomial's coefficients, 1
 * to 256; start the position in the word list, from 0, of the first word that a call takes; set the number of a published parameter set, which has
 * a k and a q of its own (tp_parameter_set). A random word is below q, drawn evenly and apart from all others, and used once. The library makes no
 * random numbers. */
#ifndef TINPLATEAU_H
#define TINPLATEAU_H

#include <stddef.h>
#include <stdint.h>

/* MINOR rises with a new call, MAJOR where a call or the meaning of an answer changes. */
#define TINPLATEAU_VERSION_MAJOR 4
#define TINPLATEAU_VERSION_MINOR 0

/* Has the compiler warn where an answer is dropped; gcc does so in C in spite of a cast to void. Defined as nothing (-DTP_NODISCARD=) it is
 * off. */
#ifndef TP_NODISCARD
#if defined(__cplusplus) && __cplusplus >= 201703L || defined(__STDC_VERSION__) && __STDC_VERSION__ >= 202311L
#define TP_NODISCARD [[nodiscard]]
#elif defined(__GNUC__)
#define TP_NODISCARD __attribute__((warn_unused_result))
#else
#define TP_NODISCARD
#endif
#endif

#ifdef __cplusplus
extern "C" {
#endif

/* The limits of n, k and m, of the words that one sample takes, and of a lesson file's bytes; the bytes of a report's text buffer. */
#define TP_MIN_SHARES 2
#define TP_MAX_SHARES 8
#define TP_MIN_BITS 1
#define TP_MAX_BITS 16
#define TP_MIN_COEFFICIENTS 1
#define TP_MAX_COEFFICIENTS 256
#define TP_MAX_WORDS 1792
#define TP_MAX_FILE 60000
#define TP_REPORT_ROOM 1200

/* The random words of a converted bit, of a converted string, and of a sample; the words of a sample's work area, which is a polynomial's too; the
 * step records of a sample, for an n from 1 on, and their bytes; the shares of a polynomial's x, y and output, each, and its random words; the
 * bytes of shared ML-KEM noise, where k is that of the set, and the shares of x and y that they are split into, each; the bytes of a lesson's text
 * buffer. They are of type size_t, and not for #if. */
#ifdef __cplusplus
#define TP_SIZE(number) static_cast<size_t>(number)
#else
#define TP_SIZE(number) ((size_t)(number))
#endif
#define TP_BIT_WORDS(n) (TP_SIZE(n) * (TP_SIZE(n) - 1))
#define TP_VALUE_WORDS(n, k) (TP_SIZE(k) * TP_BIT_WORDS(n))
#define TP_SAMPLE_WORDS(n, k) (2 * TP_SIZE(k) * TP_BIT_WORDS(n))
#define TP_SAMPLE_WORK(n) TP_SIZE(n)
#define TP_STEP_RECORDS(n, k) (2 * TP_SIZE(k) * (5 * TP_SIZE(n) * (TP_SIZE(n) + 1) / 2 - 3))
#define TP_STEP_BYTES(n, k) (8 * TP_STEP_RECORDS(n, k))
#define TP_POLYNOMIAL_SHARES(n, m) (TP_SIZE(m) * TP_SIZE(n))
#define TP_POLYNOMIAL_WORDS(n, k, m) (TP_SIZE(m) * TP_SAMPLE_WORDS(n, k))
#define TP_NOISE_BYTES(n, k) (64 * TP_SIZE(k) * TP_SIZE(n))
#define TP_NOISE_SHARES(n) (256 * TP_SIZE(n))
#define TP_TEXT_ROOM(file_len) (TP_SIZE(file_len) > TP_MAX_FILE ? TP_SIZE(45) : 3 * TP_SIZE(file_len) + 45)

/* Why a call is refused. TP_MARK to TP_FILE_LENGTH are about lesson files, and stand in a file's text only. */
enum tp_code {
    TP_ACCEPTED = 0,
    TP_SHARE_COUNT = 1,        /* n is not from 2 to 8 */
    TP_STRING_LENGTH = 2,      /* k is not from 1 to 16 */
    TP_MODULUS = 3,            /* q is too small */
    TP_X_COUNT = 4,            /* not n Boolean shares (in a polynomial mn), of x where there are two lists */
    TP_Y_COUNT = 5,            /* not n shares of y (in a polynomial mn) */
    TP_X_WIDTH = 6,            /* a Boolean share, of x where there are two lists, of more than k bits */
    TP_Y_WIDTH = 7,            /* a share of y of more than k bits */
    TP_WORD_COUNT = 8,         /* too few random words */
    TP_WORD_RANGE = 9,         /* a random word not below q */
    TP_OUTPUT_ROOM = 10,       /* an output that is too short */
    TP_WORK_ROOM = 11,         /* a work area that is too short */
    TP_VALUE_WIDTH = 12,       /* an opened string of more than k bits */
    TP_MASK_COUNT = 13,        /* not n - 1 masks */
    TP_MASK_WIDTH = 14,        /* a mask of more than k bits */
    TP_ARITHMETIC_COUNT = 15,  /* not n arithmetic shares */
    TP_ARITHMETIC_RANGE = 16,  /* an arithmetic share not below q */
    TP_RESIDUE_RANGE = 17,     /* an opened residue not below q */
    TP_MARK = 18,              /* a mark that is not allowed where it stands */
    TP_CUT_SHORT = 19,         /* the file ends within a record or a sample */
    TP_WORD_LIMIT = 20,        /* a count of random words above 1,792 */
    TP_FILE_LENGTH = 21,       /* a file of more than 60,000 bytes */
    TP_SET_NUMBER = 22,        /* no published parameter set has this number */
    TP_COEFFICIENT_COUNT = 23, /* m is not from 1 to 256 */
    TP_NOISE_SET = 24,         /* a published parameter set, but not 1 or 2, which are ML-KEM's */
    TP_NOISE_LENGTH = 25,      /* not n strings of 64 * k noise bytes */
    TP_RECORD_ROOM = 26        /* too few bytes for the step records */
};

/* Code 0: accepted, and the value is a count, or where a call has a start the position behind its last word. Else a number of enum tp_code, and
 * the value is the position of what is unfit. */
typedef struct tp_answer {
    uint32_t code;
    size_t value;
} tp_answer;

/* An opened string: its k bits, bit 0 the lowest. */
typedef struct tp_string {
    uint16_t bits;
} tp_string;

/* An opened residue: a number below q. */
typedef struct tp_residue {
    uint16_t value;
} tp_residue;

/* Where the code is not 0, what was opened is 0. Where it is 0, the position is. So in the answers below. */
typedef struct tp_opened_string {
    uint32_t code;
    size_t position;
    tp_string opened;
} tp_opened_string;

typedef struct tp_opened_residue {
    uint32_t code;
    size_t position;
    tp_residue opened;
} tp_opened_residue;

typedef struct tp_signed {
    uint32_t code;
    size_t position;
    int32_t value;
} tp_signed;

/* Where the code is not 0, k and q are 0. Its one refusal has position 0. */
typedef struct tp_parameters {
    uint32_t code;
    size_t k;
    uint16_t q;
} tp_parameters;

/* The layout that the archive has. From C11 and C++11 on, a compiler that lays a struct out in another way is refused here. */
#if defined(__cplusplus) && __cplusplus >= 201103L
#define TP_HOLDS(fact) static_assert(fact, #fact)
#elif defined(__STDC_VERSION__) && __STDC_VERSION__ >= 201112L
#define TP_HOLDS(fact) _Static_assert(fact, #fact)
#endif
#ifdef TP_HOLDS
#define TP_OFFSET(type, member, offset) TP_HOLDS(offsetof(type, member) == (offset))
TP_HOLDS(sizeof(tp_answer) == 16);
TP_OFFSET(tp_answer, code, 0);
TP_OFFSET(tp_answer, value, 8);
TP_HOLDS(sizeof(tp_string) == 2);
TP_OFFSET(tp_string, bits, 0);
TP_HOLDS(sizeof(tp_residue) == 2);
TP_OFFSET(tp_residue, value, 0);
TP_HOLDS(sizeof(tp_opened_string) == 24);
TP_OFFSET(tp_opened_string, code, 0);
TP_OFFSET(tp_opened_string, position, 8);
TP_OFFSET(tp_opened_string, opened, 16);
TP_HOLDS(sizeof(tp_opened_residue) == 24);
TP_OFFSET(tp_opened_residue, code, 0);
TP_OFFSET(tp_opened_residue, position, 8);
TP_OFFSET(tp_opened_residue, opened, 16);
TP_HOLDS(sizeof(tp_signed) == 24);
TP_OFFSET(tp_signed, code, 0);
TP_OFFSET(tp_signed, position, 8);
TP_OFFSET(tp_signed, value, 16);
TP_HOLDS(sizeof(tp_parameters) == 24);
TP_OFFSET(tp_parameters, code, 0);
TP_OFFSET(tp_parameters, k, 8);
TP_OFFSET(tp_parameters, q, 16);
#undef TP_OFFSET
#undef TP_HOLDS
#endif

/* Makes n Boolean shares of a k-bit string out of n - 1 masks: the masks in their order, then the value XOR all of them. Answers n.
 * Refuses 1 (n); 2 (k); 12 (value of more than k bits); 13 (not n - 1 masks); 14 (a mask of more than k bits, with its position); 10 (fewer
 * than n output words). Output words past n keep their content. */
TP_NODISCARD
tp_answer tp_mask(size_t n, size_t k, tp_string value, const uint16_t *masks, size_t masks_len, uint16_t *out, size_t out_len);

/* Opens a Boolean sharing: the XOR of its n shares.
 * Refuses 1 (n); 2 (k); 4 (not n shares); 6 (a share of more than k bits, with its position). Writes nothing. */
TP_NODISCARD
tp_opened_string tp_open_string(size_t n, size_t k, const uint16_t *shares, size_t shares_len);

/* Opens an arithmetic sharing: the sum of its n shares modulo q.
 * Refuses 1 (n); 3 (q below 3); 15 (not n shares); 16 (a share not below q, with its position). Writes nothing. */
TP_NODISCARD
tp_opened_residue tp_open_residue(size_t n, uint16_t q, const uint16_t *shares, size_t shares_len);

/* The centred value of a residue r: r where 2r is at most q, else r - q.
 * Refuses 3 (q below 3); 17 (r not below q). Writes nothing. */
TP_NODISCARD
tp_signed tp_centred(uint16_t q, tp_residue r);

/* The count of one bits in x less that in y.
 * Refuses 2 (k); 12 (more than k bits, with position 0 for x and 1 for y). Writes nothing. */
TP_NODISCARD
tp_signed tp_weight_difference(size_t k, tp_string x, tp_string y);

/* k and q of a published parameter set: 1 and 2 ML-KEM, 3 and 4 NewHope, 5 to 7 the Saber family.
 * Refuses 22 (another number). Writes nothing. */
TP_NODISCARD
tp_parameters tp_parameter_set(size_t number);

/* Converts a shared bit to n shares modulo q, with the n(n - 1) words from start on. Answers the position behind them, start + n(n - 1),
 * where the next call may start. With words drawn so, no n - 1 of the shares tell anything of the bit.
 * Refuses 1 (n); 3 (q below 3); 4 (not n shares); 6 (a share that is not 0 or 1, with its position); 8 (fewer than start + n(n - 1) words,
 * for any start: the sum does not overflow); 9 (one of those from start on not below q, with its position from the front of the list); 10
 * (fewer than n output words). Words before start, and words and output words past those, are neither read nor written. */
TP_NODISCARD
tp_answer tp_convert_bit(size_t n, uint16_t q, const uint16_t *bits, size_t bits_len, const uint16_t *words, size_t words_len, size_t start,
                         uint16_t *out, size_t out_len);

/* Converts a shared string of k bits to n shares modulo q whose residue is the string's number modulo q, with the first kn(n - 1) words. Bit i
 * takes the next n(n - 1), bits from 0 up, and counts 2 to the power i times. Answers kn(n - 1), the number of words it takes. With words drawn
 * so, no n - 1 of the shares tell anything of the string. q may be smaller than the string's number.
 * Refuses 1 (n); 2 (k); 3 (q below 3); 4 (not n shares); 6 (a share of more than k bits, with its position); 8 (fewer than kn(n - 1) words); 9
 * (one of those not below q, with its position); 10 (fewer than n output words). Words and output words past those are neither read nor
 * written. */
TP_NODISCARD
tp_answer tp_convert_value(size_t n, size_t k, uint16_t q, const uint16_t *shares, size_t shares_len, const uint16_t *words, size_t words_len,
                           uint16_t *out, size_t out_len);

/* Samples: n shares modulo q of the weight of x less the weight of y, with the W = 2kn(n - 1) words from start on. Answers the position behind
 * them, start + W, where the next call may start. With words drawn so, no n - 1 of the shares tell anything of x and y. The first n words of
 * the work area are 0 afterwards.
 * Refuses 1 (n); 2 (k); 3 (q below 2k + 1); 4 (not n shares of x); 5 (of y); 6 (a share of x of more than k bits, with its position); 7 (of y);
 * 8 (fewer than start + W words, for any start: the sum does not overflow); 9 (one of those from start on not below q, with its position from
 * the front of the list); 10 (fewer than n output words); 11 (fewer than n words in the work area). Words before start, and words, output
 * words and work words past those, are neither read nor written. */
TP_NODISCARD
tp_answer tp_sample(size_t n, size_t k, uint16_t q, const uint16_t *x, size_t x_len, const uint16_t *y, size_t y_len, const uint16_t *words,
                    size_t words_len, size_t start, uint16_t *out, size_t out_len, uint16_t *work, size_t work_len);

/* Samples as tp_sample does with start 0, and writes a record of eight bytes for each value on the way, in the order of the steps. There are
 * R = 2k(5n(n + 1)/2 - 3) of them. A record is the bytes of "ST", the bit's number (x bits 0 to k - 1, y bits k to 2k - 1), round, share, kind, and
 * the value in two bytes, low first. Shares, rounds and pairs are counted from 1. The kinds: 0 share b(j) of the bit, 1 B, 2 B * b(j) modulo q, 3 C
 * with b(j) already added to C(1), in round j; 4 a share after a pair's word, the round being the pair's number; 5 an output share with this bit in
 * it, round 0. Answers W = 2kn(n - 1). Output and work area are then as tp_sample leaves them. The records together show what the shares hide:
 * they are for a lesson, not for a secret.
 * Refuses 1 to 11 as tp_sample; 26 (fewer than 8R bytes for the records). Bytes past the last record keep their content. */
TP_NODISCARD
tp_answer tp_sample_steps(size_t n, size_t k, uint16_t q, const uint16_t *x, size_t x_len, const uint16_t *y, size_t y_len,
                          const uint16_t *words, size_t words_len, uint16_t *out, size_t out_len, uint16_t *work, size_t work_len,
                          uint8_t *records, size_t records_len);

/* Samples a polynomial: m coefficients, each as tp_sample makes it. Lists hold coefficient after coefficient: coefficient t, from 0, has the n
 * shares from position tn on in x, y and output, and takes the W = 2kn(n - 1) words from position tW on. Answers mW. With words drawn so, any
 * n - 1 shares of each coefficient, all taken together, tell nothing of x and y. The first n words of the work area are 0 afterwards.
 * Refuses, with each check made for all coefficients before the next and positions from the start of the whole list: 1 (n); 2 (k); 3 (q below
 * 2k + 1); 23 (m); 4 (not mn shares of x); 5 (of y); 6 (a share of x of more than k bits, with its position); 7 (of y); 8 (fewer than mW words);
 * 9 (one of these not below q, with its position); 10 (fewer than mn output words); 11 (fewer than n words in the work area). Words, output
 * words and work words past those are neither read nor written. */
TP_NODISCARD
tp_answer tp_sample_polynomial(size_t n, size_t k, uint16_t q, size_t m, const uint16_t *x, size_t x_len, const uint16_t *y, size_t y_len,
                               const uint16_t *words, size_t words_len, uint16_t *out, size_t out_len, uint16_t *work, size_t work_len);

/* Splits shared ML-KEM noise into the x and y shares of 256 coefficients, as tp_sample_polynomial takes them with m = 256 and the k and q of the
 * set, which is 1 or 2. The bytes are n strings of 64 * k, one behind the other, whose XOR is what FIPS 203 gives to SamplePolyCBD. Share i of
 * coefficient t, from 0, goes to position tn + i of x and of y, and is read off string i: bit j of x is bit 2tk + j of the string, and bit j of y
 * is bit 2tk + k + j, the lowest bit of each byte first. The polynomial's coefficient t, opened, is then f[t] of SamplePolyCBD. Answers 256n, the
 * words written to each list. Takes no random words.
 * Refuses 1 (n); 22 (no such set); 24 (a set that is not 1 or 2); 25 (not exactly n * 64 * k bytes); 10 (fewer than 256n words in x or in y). Words
 * past 256n keep their content. */
TP_NODISCARD
tp_answer tp_split_noise(size_t n, size_t set, const uint8_t *bytes, size_t bytes_len, uint16_t *x, size_t x_len, uint16_t *y, size_t y_len);

/* Writes the text of a lesson file, as the lesson program prints it, in front of the text buffer. Answers its length in bytes. What is
 * wrong with the file is said in the text. The words of each sample whose records are whole, also of one that is then refused, fill the word
 * buffer from the front; words past them keep their content.
 * Refuses 8 (a word buffer of fewer than 1,792 words); 10 (a text buffer of fewer than 3 * file_len + 45 bytes, or of 45 for a file of more
 * than 60,000 bytes). Text bytes past the text keep their content. */
TP_NODISCARD
tp_answer tp_lesson_text(const uint8_t *file, size_t file_len, uint16_t *words, size_t words_len, uint8_t *text, size_t text_len);

/* Writes the class report of a lesson file, as the report program prints it, in front of the text buffer. Answers its length in bytes. It has a
 * line for each centred sample that occurs, from lowest to highest: the sample and how many times it came; where all samples share one k, also
 * the number of pairs of k-bit strings with that difference of weights, and 4 to the power k. Its last line has the sum of the samples, the sum of
 * their squares and their number. Where something is wrong with the file, the text is the lesson program's refusal line alone. The word buffer is
 * afterwards as tp_lesson_text leaves it for the file.
 * Refuses 8 (a word buffer of fewer than 1,792 words); 10 (a text buffer of fewer than 1,200 bytes, whatever the file). Text bytes past the text
 * keep their content. */
TP_NODISCARD
tp_answer tp_report_text(const uint8_t *file, size_t file_len, uint16_t *words, size_t words_len, uint8_t *text, size_t text_len);

#ifdef __cplusplus
}
#endif

#endif
