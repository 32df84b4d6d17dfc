/* The refusals of the sampler with step records: each check in each way, at each n and k, alone and with others that fail too. */
#include "client.h"

/* The lists of a call, with room for one share too many. */
struct input {
    uint16_t x[SHARES + 1], y[SHARES + 1], words[SAMPLE_WORDS];
};

/* A call with so many bytes for the records. */
struct step_call {
    struct sample_case sample;
    size_t room;
};

#define CALL(room, ...) {CASE(__VA_ARGS__), room}

static size_t step_bytes(size_t n, size_t k)
{
    return RECORD * 2 * k * (5 * n * (n + 1) / 2 - 3);
}

static void refuse(const struct step_call *c)
{
    uint16_t shares[SHARES];
    BEGIN_CASE(&c->sample);
    sample_steps(&c->sample, c->room, 0, NULL, shares);
}

/* Where n or k is unfit, the lists are as it asks, or fit what it, the words or the bytes wrap to. */
static void parameters_unfit(void)
{
    static const uint16_t zeros[2 * 72], many[65536 + 2];
    const list x = LIST(1, 0), y = LIST(1, 1), words = LIST(5, 3, 10, 16);
    const struct step_call cases[] = {
        CALL(0, 0, 1, 17, NONE, NONE, NONE, 0, 0, {1, 0}, NONE),
        CALL(32, 1, 1, 17, LIST(1), LIST(1), NONE, 1, 1, {1, 0}, NONE), /* j */
        CALL(3552, 9, 1, 17, {zeros, 9}, {zeros, 9}, {zeros, 2 * 72}, 9, 9, {1, 0}, NONE), /* j */
        CALL(0, 1, 0, 17, LIST(1), LIST(1), NONE, 1, 1, {1, 0}, NONE), /* j */
        CALL(192, ((size_t)1 << 16) + 2, 1, 17, x, y, words, 2, 2, {1, 0}, NONE),
        CALL(192, ((size_t)1 << 32) + 2, 1, 17, x, y, words, 2, 2, {1, 0}, NONE),
        CALL(192, ((size_t)1 << 63) + 2, 1, 17, x, y, words, 2, 2, {1, 0}, NONE),
        CALL(0, (size_t)1 << 63, 1, 17, NONE, NONE, NONE, 0, 0, {1, 0}, NONE),
        CALL(192, SIZE_MAX - 1, 1, 17, x, y, words, 2, 2, {1, 0}, NONE),
        CALL(0, SIZE_MAX, SIZE_MAX, 0, NONE, NONE, NONE, 0, 0, {1, 0}, NONE),
        CALL(192, SIZE_MAX, 1, 65535, x, y, words, 2, 2, {1, 0}, NONE),
        CALL(0, 2, 0, 17, LIST(0, 0), LIST(0, 0), NONE, 2, 2, {2, 0}, NONE), /* j */
        CALL(3264, 2, 17, 65535, x, y, {zeros, 68}, 2, 2, {2, 0}, NONE), /* j */
        CALL(192, 2, ((size_t)1 << 16) + 1, 17, x, y, words, 2, 2, {2, 0}, NONE),
        CALL(192, 2, ((size_t)1 << 32) + 1, 17, x, y, words, 2, 2, {2, 0}, NONE),
        CALL(192, 2, ((size_t)1 << 60) + 1, 17, x, y, words, 2, 2, {2, 0}, NONE),
        CALL(192, 2, ((size_t)1 << 63) + 1, 17, x, y, words, 2, 2, {2, 0}, NONE),
        CALL(0, 2, (size_t)1 << 63, 17, LIST(0, 0), LIST(0, 0), NONE, 2, 2, {2, 0}, NONE),
        CALL(0, 2, SIZE_MAX, 0, NONE, NONE, NONE, 0, 0, {2, 0}, NONE),
        CALL(192, 2, SIZE_MAX, 65535, x, y, words, 2, 2, {2, 0}, NONE),
        CALL(3072, 2, 16, 32, x, y, {zeros, 64}, 2, 2, {3, 0}, NONE), /* h */
        CALL(0, 2, 1, 0, NONE, NONE, NONE, 0, 0, {3, 0}, NONE),
        CALL(192, 2, 1, 17, {many, COUNT(many)}, y, words, 2, 2, {4, 0}, NONE),
        CALL(192, 2, 1, 17, x, {many, COUNT(many)}, words, 2, 2, {5, 0}, NONE),
        CALL(192, 2, 1, 17, x, y, LIST(5, 3, 17, 16), 2, 2, {9, 2}, NONE), /* i */
    };
    for (size_t i = 0; i < COUNT(cases); i++)
        refuse(&cases[i]);
}

enum { CHECKS = 12, WAYS = 5 };

static const uint32_t checks[CHECKS] = {1, 2, 3, 4, 5, 6, 7, 8, 9, 10, 11, 26};

/* Unfit numbers, for a call that fits its n and k. */
static void damage_number(struct step_call *c, size_t n, size_t k, uint32_t check, size_t way)
{
    const size_t used = 2 * k * n * (n - 1), bytes = step_bytes(n, k), fewer[WAYS] = {n - 1, 0, 1, n - 1, 0};
    struct sample_case *s = &c->sample;
    if (check == TP_SHARE_COUNT)
        s->n = (const size_t[]){0, 1, 9, ((size_t)1 << 63) + n, SIZE_MAX}[way];
    else if (check == TP_STRING_LENGTH)
        s->k = (const size_t[]){0, 17, ((size_t)1 << 32) + k, ((size_t)1 << 63) + k, SIZE_MAX}[way];
    else if (check == TP_MODULUS)
        s->q = (uint16_t)(const size_t[]){2 * k, 0, 1, 2, k}[way];
    else if (check == TP_X_COUNT || check == TP_Y_COUNT)
        (check == TP_X_COUNT ? &s->x : &s->y)->len = (const size_t[]){n - 1, n + 1, 0, 1, n - 1}[way];
    else if (check == TP_WORD_COUNT)
        s->words.len = (const size_t[]){used - 1, 0, used - n * (n - 1), 1, used / 2}[way];
    else if (check == TP_OUTPUT_ROOM)
        s->out = fewer[way];
    else if (check == TP_WORK_ROOM)
        s->work = fewer[way];
    else if (check == TP_RECORD_ROOM)
        c->room = (const size_t[]){bytes - 1, 0, bytes - RECORD, 1, bytes / 2}[way];
}

/* Unfit in the lists, at the first or the last place. Answers it. */
static size_t damage_list(struct input *in, size_t n, size_t k, uint16_t q, uint32_t check, size_t way)
{
    size_t used = 2 * k * n * (n - 1), last = way % 2;
    if (check == TP_WORD_RANGE)
        in->words[last * (used - 1)] = way < 2 ? 65535 : q;
    else if (check == TP_X_WIDTH || check == TP_Y_WIDTH)
        (check == TP_X_WIDTH ? in->x : in->y)[last * (n - 1)] = way < 2 ? 65535 : (uint16_t)(1u << k);
    else
        return 0;
    return last * ((check == TP_WORD_RANGE ? used : n) - 1);
}

static size_t damage(struct step_call *c, struct input *in, size_t n, size_t k, uint16_t q, uint32_t check, size_t way)
{
    damage_number(c, n, k, check, way);
    return damage_list(in, n, k, q, check, way);
}

/* A string of 16 bits has no share that is too wide. */
static bool can_fail(size_t k, uint32_t check)
{
    return k < BITS || (check != TP_X_WIDTH && check != TP_Y_WIDTH);
}

/* The first check of a set, by its index, and the others that it is to come before. */
static void refuse_set(size_t n, size_t k, uint16_t q, size_t first, unsigned others, size_t way)
{
    static struct input in;
    struct step_call c = CALL(step_bytes(n, k), n, k, q, {in.x, n}, {in.y, n}, {in.words, 2 * k * n * (n - 1)}, n, n, {0, 0}, NONE);
    draw(in.x, SHARES + 1, 1u << k);
    draw(in.y, SHARES + 1, 1u << k);
    draw(in.words, SAMPLE_WORDS, q);
    if (!can_fail(k, checks[first]))
        return;
    for (size_t i = CHECKS - 1; i > first; i--) {
        if ((others >> i & 1) == 1 && can_fail(k, checks[i]))
            damage(&c, &in, n, k, q, checks[i], (way + i) % WAYS);
    }
    c.sample.answer.code = checks[first];
    c.sample.answer.value = damage(&c, &in, n, k, q, checks[first], way);
    refuse(&c);
}

/* Each check alone, and with all later ones. The ways take turns from k to k. */
static void refuse_each(size_t n, size_t k, uint16_t q)
{
    for (size_t first = 0; first < CHECKS; first++) {
        refuse_set(n, k, q, first, 0, (k + first) % WAYS);
        refuse_set(n, k, q, first, ~0u, (n + k) % WAYS);
    }
}

/* Each check with one other that fails too. */
static void refuse_pairs(size_t n, size_t k, uint16_t q)
{
    for (size_t first = 0; first < CHECKS; first++) {
        for (size_t other = first + 1; other < CHECKS; other++)
            refuse_set(n, k, q, first, 1u << other, (n + other) % WAYS);
    }
}

/* The first of several that are unfit: at the first and the last word of each bit, and at each share of y and then of x. */
static void refuse_positions(size_t n, size_t k, uint16_t q)
{
    static struct input in;
    size_t row = n * (n - 1), used = 2 * k * row;
    struct step_call c = CALL(step_bytes(n, k), n, k, q, {in.x, n}, {in.y, n}, {in.words, used}, n, n, {TP_WORD_RANGE, 0}, NONE);
    draw(in.x, n, 1u << k);
    draw(in.y, n, 1u << k);
    draw(in.words, used, q);
    for (size_t at = used; at-- > 0;) {
        in.words[at] = q;
        c.sample.answer.value = at;
        if (at % row == 0 || at % row == row - 1)
            refuse(&c);
    }
    for (size_t at = 2 * n; k < BITS && at-- > 0;) {
        (at < n ? in.x : in.y)[at % n] |= (uint16_t)(1u << k);
        c.sample.answer = (tp_answer){at < n ? TP_X_WIDTH : TP_Y_WIDTH, at % n};
        refuse(&c);
    }
}

/* Too few bytes for the records, and enough. */
static void record_rooms(size_t n, size_t k, uint16_t q)
{
    static struct input in;
    static uint8_t records[STEP_BYTES];
    uint16_t shares[SHARES];
    size_t used = 2 * k * n * (n - 1), bytes = step_bytes(n, k);
    const size_t rooms[] = {0, 1, RECORD, used, bytes / 2, bytes - n * RECORD, bytes - RECORD - 1, bytes - RECORD, bytes - RECORD + 1, bytes - 1};
    struct step_call c = CALL(0, n, k, q, {in.x, n}, {in.y, n}, {in.words, used}, n, n, {TP_RECORD_ROOM, 0}, NONE);
    draw(in.x, n, 1u << k);
    draw(in.y, n, 1u << k);
    draw(in.words, used, q);
    for (size_t i = 0; i < COUNT(rooms); i++) {
        c.room = rooms[i];
        refuse(&c);
    }
    c.sample.answer = (tp_answer){TP_ACCEPTED, used};
    CHECK(expect_records(&c.sample, records) == bytes);
    for (size_t more = 0; more <= 2 * RECORD; more += RECORD - 1)
        sample_steps(&c.sample, bytes + more, 0, records, shares);
}

void step_refusals(void)
{
    static const uint16_t moduli[] = {33, 34, 3329, 12289, 65535};
    parameters_unfit();
    for (size_t n = 2; n <= SHARES; n++) {
        for (size_t k = 1; k <= BITS; k++) {
            uint16_t q = moduli[(n + k) % COUNT(moduli)];
            refuse_each(n, k, q);
            record_rooms(n, k, q);
        }
        refuse_pairs(n, 1, 3);
        refuse_pairs(n, 2 * n, 12289);
        refuse_positions(n, 1 + n % 3, 7);
    }
    refuse_positions(2, 16, 65535);
    refuse_positions(8, 15, 12289);
}
