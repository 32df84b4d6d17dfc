/* ML-KEM noise, split into the shares of a polynomial. What is expected is worked out bit by bit from the text of FIPS 203, or by hand. */
#include "client.h"

enum { Q = 3329, STRING = 64 * 3, NOISE_SHARES = COEFFICIENTS * SHARES };

/* The k of sets 1 and 2. */
static size_t bits_of(size_t set)
{
    return set + 1;
}

void split_noise(const struct noise_case *c)
{
    size_t made = c->answer.code == 0 ? COEFFICIENTS * c->n * sizeof(uint16_t) : 0;
    lent bytes = lend_bytes(c->bytes, c->bytes == NULL ? 0 : c->len, c->len);
    lent x = lend_room(c->x), y = lend_room(c->y);
    tp_answer answer = tp_split_noise(c->n, c->set, bytes.at, bytes.size, WORDS(x), WORDS(y));
    CHECK(answer.code == c->answer.code);
    CHECK(answer.value == c->answer.value);
    take_back_kept(bytes);
    take_back(x, c->x_shares, made);
    take_back(y, c->y_shares, made);
}

/* An accepted call, with as much room as it asks for and with more, in either list and in both. */
static void split_all(size_t n, size_t set, const uint8_t *bytes, const uint16_t *x, const uint16_t *y)
{
    size_t len = 64 * bits_of(set) * n, shares = COEFFICIENTS * n;
    for (size_t more = 0; more < 4; more++) {
        size_t x_room = shares + more % 2 * SPARE, y_room = shares + more / 2 * SPARE;
        split_noise(&(struct noise_case)CASE(n, set, bytes, len, x_room, y_room, {0, shares}, x, y));
    }
}

/* BytesToBits: the lowest bit of each byte first. */
static void bytes_to_bits(const uint8_t *bytes, size_t len, uint8_t *bits)
{
    for (size_t i = 0; i < len; i++) {
        uint8_t left = bytes[i];
        for (size_t j = 0; j < 8; j++) {
            bits[8 * i + j] = left % 2;
            left /= 2;
        }
    }
}

/* SamplePolyCBD, with k for eta: the sum of k bits less the sum of the next k, modulo q. */
static void sample_poly_cbd(size_t k, const uint8_t *bytes, uint16_t f[COEFFICIENTS])
{
    uint8_t b[8 * STRING];
    bytes_to_bits(bytes, 64 * k, b);
    for (size_t i = 0; i < COEFFICIENTS; i++) {
        uint16_t x = 0, y = 0;
        for (size_t j = 0; j < k; j++) {
            x += b[2 * i * k + j];
            y += b[2 * i * k + k + j];
        }
        f[i] = (x + Q - y) % Q;
    }
}

/* The bits that SamplePolyCBD sums up for string i, each at its own place in a share. */
static void expect_shares(size_t n, size_t k, const uint8_t *bytes, uint16_t *x, uint16_t *y)
{
    for (size_t i = 0; i < n; i++) {
        uint8_t b[8 * STRING];
        bytes_to_bits(bytes + 64 * k * i, 64 * k, b);
        for (size_t t = 0; t < COEFFICIENTS; t++) {
            x[t * n + i] = 0, y[t * n + i] = 0;
            for (size_t j = 0; j < k; j++) {
                x[t * n + i] += b[2 * t * k + j] << j;
                y[t * n + i] += b[2 * t * k + k + j] << j;
            }
        }
    }
}

/* The polynomial of the shares, opened, is f. */
static void check_polynomial(size_t n, size_t k, const uint16_t *x, const uint16_t *y, const uint16_t f[COEFFICIENTS])
{
    static uint16_t words[COEFFICIENTS * SAMPLE_WORDS], shares[NOISE_SHARES];
    size_t used = COEFFICIENTS * 2 * k * n * (n - 1), len = COEFFICIENTS * n;
    draw(words, used, Q);
    const struct sample_case c = CASE(n, k, Q, {x, len}, {y, len}, {words, used}, len, n, {0, used}, NONE);
    sample_polynomial(COEFFICIENTS, &c, 0, shares);
    for (size_t t = 0; t < COEFFICIENTS; t++)
        CHECK(open_residue(n, Q, shares + t * n).value == f[t]);
}

/* Random bytes: the shares are those expected, and their polynomial is that of the opened bytes. */
static void noise_drawn(size_t n, size_t set)
{
    static uint8_t bytes[SHARES * STRING];
    static uint16_t x[NOISE_SHARES], y[NOISE_SHARES];
    uint8_t opened[STRING] = {0};
    uint16_t f[COEFFICIENTS];
    size_t k = bits_of(set), string = 64 * k;
    begin_case(__FILE__, __LINE__);
    for (size_t i = 0; i < n * string; i++) {
        bytes[i] = (uint8_t)random_below(256);
        opened[i % string] ^= bytes[i];
    }
    expect_shares(n, k, bytes, x, y);
    split_all(n, set, bytes, x, y);
    sample_poly_cbd(k, opened, f);
    check_polynomial(n, k, x, y, f);
}

/* Bytes from a position on, the others 0; and the shares of one string from coefficient t on, the others 0. */
struct known_case {
    int line;
    size_t n, set, at;
    list bytes;
    size_t string, t;
    list x, y;
};

static void split_known(const struct known_case *cases, size_t count)
{
    for (const struct known_case *c = cases; c < cases + count; c++) {
        uint8_t bytes[SHARES * STRING] = {0};
        uint16_t x[NOISE_SHARES] = {0}, y[NOISE_SHARES] = {0};
        BEGIN_CASE(c);
        for (size_t p = 0; p < c->bytes.len; p++)
            bytes[c->at + p] = (uint8_t)c->bytes.at[p];
        for (size_t t = 0; t < c->x.len; t++) {
            x[(c->t + t) * c->n + c->string] = c->x.at[t];
            y[(c->t + t) * c->n + c->string] = c->y.at[t];
        }
        split_all(c->n, c->set, bytes, x, y);
    }
}

/* 0xE4 is 0 to 3 in two bits each, and 0x88, 0xC6, 0xFA is 0 to 7 in three. 0x1B and 0x77, 0x39, 0x05 are the same backwards. */
static void noise_known(void)
{
    const struct known_case cases[] = {
        CASE(2, 1, 0, LIST(0x01), 0, 0, LIST(1, 0), LIST(0, 0)),
        CASE(2, 1, 0, LIST(0x02), 0, 0, LIST(2, 0), LIST(0, 0)),
        CASE(2, 1, 0, LIST(0x04), 0, 0, LIST(0, 0), LIST(1, 0)),
        CASE(2, 1, 0, LIST(0x08), 0, 0, LIST(0, 0), LIST(2, 0)),
        CASE(2, 1, 0, LIST(0x10), 0, 0, LIST(0, 1), LIST(0, 0)),
        CASE(2, 1, 0, LIST(0x80), 0, 0, LIST(0, 0), LIST(0, 2)),
        CASE(2, 1, 127, LIST(0xE4), 0, 254, LIST(0, 2), LIST(1, 3)),
        CASE(2, 1, 128, LIST(0xE4), 1, 0, LIST(0, 2), LIST(1, 3)),
        CASE(3, 1, 128 + 5, LIST(0xE4, 0x1B), 1, 10, LIST(0, 2, 3, 1), LIST(1, 3, 2, 0)),
        CASE(8, 1, 7 * 128 + 64, LIST(0x20), 7, 128, LIST(0, 2), LIST(0, 0)),
        CASE(8, 1, 8 * 128 - 1, LIST(0x80), 7, 255, LIST(0), LIST(2)),
        CASE(2, 2, 0, LIST(0x01), 0, 0, LIST(1, 0), LIST(0, 0)),
        CASE(2, 2, 0, LIST(0x04), 0, 0, LIST(4, 0), LIST(0, 0)),
        CASE(2, 2, 0, LIST(0x08), 0, 0, LIST(0, 0), LIST(1, 0)),
        CASE(2, 2, 0, LIST(0x20), 0, 0, LIST(0, 0), LIST(4, 0)),
        CASE(2, 2, 0, LIST(0x40), 0, 0, LIST(0, 1), LIST(0, 0)),
        CASE(2, 2, 0, LIST(0x80), 0, 0, LIST(0, 2), LIST(0, 0)),
        CASE(2, 2, 1, LIST(0x01), 0, 1, LIST(4), LIST(0)),
        CASE(2, 2, 1, LIST(0x02), 0, 1, LIST(0), LIST(1)),
        CASE(2, 2, 2, LIST(0x80), 0, 3, LIST(0), LIST(4)),
        CASE(2, 2, 189, LIST(0x88, 0xC6, 0xFA), 0, 252, LIST(0, 2, 4, 6), LIST(1, 3, 5, 7)),
        CASE(2, 2, 192, LIST(0x88, 0xC6, 0xFA), 1, 0, LIST(0, 2, 4, 6), LIST(1, 3, 5, 7)),
        CASE(3, 2, 192 + 96, LIST(0x88, 0xC6, 0xFA, 0x77, 0x39, 0x05), 1, 128, LIST(0, 2, 4, 6, 7, 5, 3, 1), LIST(1, 3, 5, 7, 6, 4, 2, 0)),
        CASE(8, 2, 8 * 192 - 1, LIST(0x80), 7, 255, LIST(0), LIST(4)),
    };
    split_known(cases, COUNT(cases));
}

/* Two strings that repeat k bytes, the others 0: all coefficients are alike. x and y are those of both strings. */
struct alike_case {
    int line;
    size_t n, set;
    list first, last;
    uint16_t x[2], y[2], f;
};

static void split_alike(const struct alike_case *c)
{
    uint8_t bytes[SHARES * STRING] = {0};
    uint16_t x[NOISE_SHARES] = {0}, y[NOISE_SHARES] = {0}, f[COEFFICIENTS];
    size_t n = c->n, k = bits_of(c->set), last = n - 1;
    for (size_t p = 0; p < 64 * k; p++) {
        bytes[p] = (uint8_t)c->first.at[p % k];
        bytes[64 * k * last + p] = (uint8_t)c->last.at[p % k];
    }
    for (size_t t = 0; t < COEFFICIENTS; t++) {
        x[t * n] = c->x[0], x[t * n + last] = c->x[1];
        y[t * n] = c->y[0], y[t * n + last] = c->y[1];
        f[t] = c->f;
    }
    split_all(n, c->set, bytes, x, y);
    check_polynomial(n, k, x, y, f);
}

static void noise_alike(void)
{
    const struct alike_case cases[] = {
        CASE(2, 1, LIST(0xFF, 0xFF), LIST(0xFF, 0xFF), {3, 3}, {3, 3}, 0),
        CASE(2, 1, LIST(0x33, 0x33), LIST(0x00, 0x00), {3, 0}, {0, 0}, 2),
        CASE(3, 1, LIST(0x33, 0x33), LIST(0xFF, 0xFF), {3, 3}, {0, 3}, Q - 2),
        CASE(8, 1, LIST(0x66, 0x66), LIST(0x55, 0x55), {2, 1}, {1, 1}, 2),
        CASE(2, 2, LIST(0xFF, 0xFF, 0xFF), LIST(0xFF, 0xFF, 0xFF), {7, 7}, {7, 7}, 0),
        CASE(3, 2, LIST(0xC7, 0x71, 0x1C), LIST(0x00, 0x00, 0x00), {7, 0}, {0, 0}, 3),
        CASE(2, 2, LIST(0xC7, 0x71, 0x1C), LIST(0xFF, 0xFF, 0xFF), {7, 7}, {0, 7}, Q - 3),
        CASE(8, 2, LIST(0x4D, 0xD3, 0x34), LIST(0x41, 0x10, 0x04), {5, 1}, {1, 0}, 0),
    };
    for (size_t i = 0; i < COUNT(cases); i++) {
        BEGIN_CASE(&cases[i]);
        split_alike(&cases[i]);
    }
}

/* A refused call does not look at the bytes: they are not given. */
#define REFUSED(n, set, len, x, y, code) CASE(n, set, NULL, len, x, y, {code, 0}, NULL, NULL)

static void refuse_all(const struct noise_case *cases, size_t count)
{
    for (size_t i = 0; i < count; i++) {
        BEGIN_CASE(&cases[i]);
        split_noise(&cases[i]);
    }
}

/* For each number calls with nothing else wrong, and one in which all that is asked later is wrong too. So below. Where n or the set is too
 * large, the lists fit what it, 64kn or 256n wraps to. */
static void noise_unfit(void)
{
    const struct noise_case cases[] = {
        REFUSED(0, 1, 0, 0, 0, 1),
        REFUSED(1, 1, 128, 256, 256, 1),
        REFUSED(9, 2, 9 * 192, 9 * 256, 9 * 256, 1),
        REFUSED(256 + 2, 1, 256, 512, 512, 1),
        REFUSED(((size_t)1 << 32) + 2, 1, 256, 512, 512, 1),
        REFUSED((size_t)1 << 57, 1, 0, 0, 0, 1),
        REFUSED(((size_t)1 << 57) + 2, 1, 256, 512, 512, 1),
        REFUSED(((size_t)1 << 58) + 2, 2, 384, 512, 512, 1),
        REFUSED(((size_t)1 << 63) + 8, 2, 8 * 192, 8 * 256, 8 * 256, 1),
        REFUSED(0, 0, 1, 0, 0, 1),
        REFUSED(SIZE_MAX, SIZE_MAX, 1, 0, 0, 1),
        REFUSED(2, 0, 256, 512, 512, 22),
        REFUSED(2, 8, 256, 512, 512, 22),
        REFUSED(2, 256 + 1, 256, 512, 512, 22),
        REFUSED(2, ((size_t)1 << 32) + 1, 256, 512, 512, 22),
        REFUSED(2, ((size_t)1 << 63) + 2, 384, 512, 512, 22),
        REFUSED(8, SIZE_MAX, 1, 0, 0, 22),
        REFUSED(2, 3, 2 * 64 * 8, 512, 512, 24),
        REFUSED(3, 4, 3 * 64 * 16, 768, 768, 24),
        REFUSED(4, 5, 4 * 64 * 5, 1024, 1024, 24),
        REFUSED(5, 6, 5 * 64 * 4, 1280, 1280, 24),
        REFUSED(8, 7, 8 * 64 * 3, 2048, 2048, 24),
        REFUSED(2, 7, 0, 0, 0, 24),
    };
    refuse_all(cases, COUNT(cases));
}

/* Checks 25 and 10: the bytes and the room. */
static void noise_refused(void)
{
    const struct noise_case cases[] = {
        REFUSED(2, 1, 257, 512, 512, 25),
        REFUSED(2, 1, 384, 512, 512, 25),
        REFUSED(2, 1, 128, 512, 512, 25),
        REFUSED(2, 2, 256, 512, 512, 25),
        REFUSED(2, 2, 0, 512, 512, 25),
        REFUSED(8, 2, 8 * 192 + 1, 0, 0, 25),
        REFUSED(2, 2, 384, 511, 513, 10),
        REFUSED(2, 2, 384, 513, 511, 10),
        REFUSED(3, 1, 384, 256, 768, 10),
        REFUSED(3, 1, 384, 768, 256, 10),
        REFUSED(8, 2, 8 * 192, 0, 2048, 10),
        REFUSED(8, 2, 8 * 192, 2048, 0, 10),
    };
    refuse_all(cases, COUNT(cases));
}

/* All sets of faults: the one that is asked about first is answered. */
static void noise_faults(size_t n, size_t set)
{
    static const uint32_t codes[] = {1, 22, 24, 25, 10, 10};
    for (unsigned faults = 1; faults < 1u << COUNT(codes); faults++) {
        size_t first = 0, shares = COEFFICIENTS * n;
        while ((faults >> first & 1) == 0)
            first++;
        const struct noise_case c = REFUSED(faults & 1 ? n + 7 : n, faults & 2 ? set + 7 : faults & 4 ? set + 2 : set,
                                            64 * bits_of(set) * n - (faults >> 3 & 1), shares - (faults >> 4 & 1), shares - (faults >> 5 & 1),
                                            codes[first]);
        refuse_all(&c, 1);
    }
}

void noise_cases(void)
{
    noise_known();
    noise_alike();
    noise_unfit();
    noise_refused();
    for (size_t set = 1; set <= 2; set++) {
        for (size_t n = 2; n <= SHARES; n++) {
            noise_drawn(n, set);
            noise_faults(n, set);
        }
    }
}
