/* The refusals of the conversion of a string: each check in each way, at each n and k, alone and with others that fail too. */
#include "client.h"

/* The lists of a call, with room for one Boolean share too many. */
struct input {
    uint16_t boolean[SHARES + 1], words[VALUE_WORDS];
};

static void refuse(const struct value_case *c)
{
    uint16_t shares[SHARES];
    BEGIN_CASE(c);
    convert_value(c, 0, shares);
}

/* Where n or k is unfit, the lists are as it asks, or fit what it or kn(n - 1) wraps to. */
static void parameters_unfit(void)
{
    static const uint16_t zeros[72], many[65536 + 2];
    const list boolean = LIST(3, 2), words = LIST(5, 3, 10, 16);
    const struct value_case cases[] = {
        CASE(0, 2, 17, NONE, NONE, 0, {1, 0}, NONE),
        CASE(1, 2, 17, LIST(3), NONE, 1, {1, 0}, NONE),
        CASE(9, 1, 17, {zeros, 9}, {zeros, 72}, 9, {1, 0}, NONE),
        CASE(((size_t)1 << 16) + 2, 2, 17, boolean, words, 2, {1, 0}, NONE),
        CASE(((size_t)1 << 32) + 2, 2, 17, boolean, words, 2, {1, 0}, NONE),
        CASE((size_t)1 << 63, 2, 17, NONE, NONE, 0, {1, 0}, NONE),
        CASE(SIZE_MAX - 1, 2, 17, boolean, words, 2, {1, 0}, NONE),
        CASE(2, 0, 17, LIST(0, 0), NONE, 2, {2, 0}, NONE),
        CASE(2, 17, 65535, boolean, {zeros, 34}, 2, {2, 0}, NONE),
        CASE(2, ((size_t)1 << 16) + 2, 17, boolean, words, 2, {2, 0}, NONE),
        CASE(2, ((size_t)1 << 32) + 2, 17, boolean, words, 2, {2, 0}, NONE),
        CASE(2, (size_t)1 << 63, 17, LIST(0, 0), NONE, 2, {2, 0}, NONE),
        CASE(2, SIZE_MAX - 1, 17, boolean, words, 2, {2, 0}, NONE),
        CASE(2, 1, 0, NONE, NONE, 0, {3, 0}, NONE),
        CASE(2, 1, 17, NONE, NONE, 0, {4, 0}, NONE),
        CASE(2, 1, 17, {many, COUNT(many)}, LIST(5, 3), 2, {4, 0}, NONE),
        CASE(2, 1, 17, LIST(1, 0), NONE, 0, {8, 0}, NONE),
    };
    for (size_t i = 0; i < COUNT(cases); i++)
        refuse(&cases[i]);
}

/* Makes a call that fits its n and k unfit for a check. Answers the position of what is unfit. */
static size_t damage(struct value_case *c, struct input *in, size_t n, size_t k, uint32_t check, size_t way)
{
    size_t used = k * n * (n - 1), first_or_last = way % 2;
    if (check == TP_SHARE_COUNT)
        c->n = (const size_t[]){0, 1, 9, ((size_t)1 << 63) + n, SIZE_MAX}[way];
    else if (check == TP_STRING_LENGTH)
        c->k = (const size_t[]){0, 17, ((size_t)1 << 32) + k, ((size_t)1 << 63) + k, SIZE_MAX}[way];
    else if (check == TP_MODULUS)
        c->q = way % 3;
    else if (check == TP_X_COUNT)
        c->boolean.len = (const size_t[]){n - 1, n + 1, 0, 1, n - 1}[way];
    else if (check == TP_X_WIDTH) {
        in->boolean[first_or_last * (n - 1)] = way < 2 ? 65535 : (uint16_t)(1u << k);
        return first_or_last * (n - 1);
    } else if (check == TP_WORD_COUNT)
        c->words.len = (const size_t[]){used - 1, 0, used - n * (n - 1), 1, used - 1}[way];
    else if (check == TP_WORD_RANGE) {
        in->words[first_or_last * (used - 1)] = way < 2 ? 65535 : c->q;
        return first_or_last * (used - 1);
    } else
        c->out = (const size_t[]){n - 1, 0, 1, n - 1, 0}[way];
    return 0;
}

enum { CHECKS = 8, WAYS = 5 };

static const uint32_t checks[CHECKS] = {1, 2, 3, 4, 6, 8, 9, 10};

/* The first check of a set, by its index, and the others that it is to come before. Where a string has 16 bits no share is too wide. */
static void refuse_set(size_t n, size_t k, uint16_t q, size_t first, unsigned others, size_t way)
{
    static struct input in;
    struct value_case c = CASE(n, k, q, {in.boolean, n}, {in.words, k * n * (n - 1)}, n, {0, 0}, NONE);
    draw(in.boolean, SHARES + 1, 1u << k);
    draw(in.words, VALUE_WORDS, q);
    if (k == BITS && checks[first] == TP_X_WIDTH)
        return;
    for (size_t i = CHECKS - 1; i > first; i--) {
        if ((others >> i & 1) == 1 && (k < BITS || checks[i] != TP_X_WIDTH))
            damage(&c, &in, n, k, checks[i], (way + i) % WAYS);
    }
    c.answer.code = checks[first];
    c.answer.value = damage(&c, &in, n, k, checks[first], way);
    refuse(&c);
}

/* Each check in each way; then with one other that fails too, and with all later ones. */
static void refuse_all(size_t n, size_t k, uint16_t q)
{
    for (size_t first = 0; first < CHECKS; first++) {
        for (size_t way = 0; way < WAYS; way++) {
            refuse_set(n, k, q, first, 0, way);
            refuse_set(n, k, q, first, ~0u, way);
        }
        for (size_t other = first + 1; other < CHECKS; other++)
            refuse_set(n, k, q, first, 1u << other, (n + k + other) % WAYS);
    }
}

/* The first of several that are unfit: at each share, and at the first and the last word of each bit. */
static void refuse_positions(size_t n, size_t k, uint16_t q)
{
    static struct input in;
    size_t row = n * (n - 1), used = k * row;
    struct value_case c = CASE(n, k, q, {in.boolean, n}, {in.words, used}, n, {TP_WORD_RANGE, 0}, NONE);
    draw(in.boolean, n, 1u << k);
    draw(in.words, used, q);
    for (size_t at = used; at-- > 0;) {
        in.words[at] = q;
        c.answer.value = at;
        if (at % row == 0 || at % row == row - 1)
            refuse(&c);
    }
    c.answer.code = TP_X_WIDTH;
    for (size_t at = n; k < BITS && at-- > 0;) {
        in.boolean[at] |= (uint16_t)(1u << k);
        c.answer.value = at;
        refuse(&c);
    }
}

void value_refusals(void)
{
    static const uint16_t moduli[] = {3, 4, 17, 3329, 65535};
    parameters_unfit();
    for (size_t n = 2; n <= SHARES; n++) {
        for (size_t k = 1; k <= BITS; k++) {
            refuse_all(n, k, moduli[(n + k) % COUNT(moduli)]);
            refuse_positions(n, k, moduli[(n + 2 * k) % COUNT(moduli)]);
        }
    }
}
