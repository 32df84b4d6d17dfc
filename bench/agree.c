/* All contestants leave the same behind. */
#include "contest.h"

#include <stdio.h>
#include <string.h>

/* Not from low to high. */
static size_t random_outside(size_t low, size_t high)
{
    return random_within(0, 1) ? random_within(0, low - 1) : random_within(high + 1, high + 8);
}

static size_t one_off(size_t number)
{
    return number + 1 - 2 * random_within(0, 1);
}

/* What check 3 asks of q. */
static size_t least_modulus(const contest *in, size_t k)
{
    return in->task == VALUES ? 3 : 2 * k + 1;
}

/* Makes a number of a sampler's or a conversion's call unfit for one of the checks. */
static void damage_number(call *c, const contest *in, point p, size_t m, enum tp_code check)
{
    size_t shares = TP_POLYNOMIAL_SHARES(p.n, m);
    if (check == TP_SHARE_COUNT)
        c->p.n = random_outside(TP_MIN_SHARES, TP_MAX_SHARES);
    else if (check == TP_STRING_LENGTH)
        c->p.k = random_outside(TP_MIN_BITS, TP_MAX_BITS);
    else if (check == TP_MODULUS)
        c->p.q = random_within(0, least_modulus(in, p.k) - 1);
    else if (check == TP_COEFFICIENT_COUNT)
        c->m = random_outside(TP_MIN_COEFFICIENTS, TP_MAX_COEFFICIENTS);
    else if (check == TP_X_COUNT)
        c->x_len = one_off(shares);
    else if (check == TP_Y_COUNT)
        c->y_len = one_off(shares);
    else if (check == TP_WORD_COUNT)
        c->words_len = random_within(0, words_needed(in, p, m) - 1);
    else if (check == TP_OUTPUT_ROOM)
        c->out_len = random_within(0, shares - 1);
    else if (check == TP_WORK_ROOM)
        c->work_len = random_within(0, TP_SAMPLE_WORK(p.n) - 1);
    else if (check == TP_RECORD_ROOM)
        c->records_len = random_within(0, TP_STEP_BYTES(p.n, p.k) - 1);
}

/* The same for what a list holds, in any coefficient. */
static void damage_list(call *c, const contest *in, point p, size_t m, enum tp_code check)
{
    size_t share = random_within(0, TP_POLYNOMIAL_SHARES(p.n, m) - 1);
    if (check == TP_X_WIDTH)
        c->x[share] |= 1u << p.k;
    else if (check == TP_Y_WIDTH)
        c->y[share] |= 1u << p.k;
    else if (check == TP_WORD_RANGE)
        c->words[random_within(0, words_needed(in, p, m) - 1)] = random_within(p.q, UINT16_MAX);
}

/* The same for a split. */
static void damage_split(call *c, point p, enum tp_code check)
{
    if (check == TP_SHARE_COUNT)
        c->p.n = random_outside(TP_MIN_SHARES, TP_MAX_SHARES);
    else if (check == TP_SET_NUMBER)
        c->set = random_outside(1, 7);
    else if (check == TP_NOISE_SET)
        c->set = random_within(3, 7);
    else if (check == TP_NOISE_LENGTH)
        c->bytes_len = one_off(TP_NOISE_BYTES(p.n, p.k));
    else if (check == TP_OUTPUT_ROOM)
        *(random_within(0, 1) ? &c->x_len : &c->y_len) = random_within(0, TP_NOISE_SHARES(p.n) - 1);
}

static void run(const contestant *who, const call *c, outcome *o)
{
    memset(o, 0xa5, sizeof *o);
    tp_answer answer = run_call(who, c, o);
    o->answer.code = answer.code;
    o->answer.value = answer.value;
}

/* The same answer and the same in every list. Single calls need not agree on a call that was made unfit: they write the coefficients before. */
static bool all_agree(const contest *in, const call *c, bool damaged)
{
    static outcome expected, got;
    run(&in->contestants[0], c, &expected);
    for (size_t i = 1; i < in->count; i++) {
        const contestant *who = &in->contestants[i];
        if (damaged && who->kind == SINGLE)
            continue;
        run(who, c, &got);
        if (memcmp(&expected, &got, sizeof got) != 0) {
            printf("%s: %s and %s differ at n %zu, k %zu, q %u, m %zu\n", in->name, in->contestants[0].title, who->title, c->p.n, c->p.k,
                   (unsigned)c->p.q, c->m);
            return false;
        }
    }
    return true;
}

/* An accepted call, then the same made unfit for one check, then for another too. */
static bool agree_at(const contest *in, point p)
{
    call c;
    bool agreed = true;
    size_t m = random_within(1, in->m);
    make_call(&c, in, p, m);
    for (size_t damages = 0; agreed && damages < 3; damages++) {
        agreed = all_agree(in, &c, damages > 0);
        enum tp_code check = in->checks[random_within(0, in->checks_len - 1)];
        if (in->task == SPLITS)
            damage_split(&c, p, check);
        else {
            damage_number(&c, in, p, m, check);
            damage_list(&c, in, p, m, check);
        }
    }
    free_call(&c);
    return agreed;
}

/* At every n and k, with a random q where one is asked for. */
bool agree_everywhere(const contest *in)
{
    bool splits = in->task == SPLITS;
    size_t calls = 0, least_k = splits ? 2 : TP_MIN_BITS, most_k = splits ? 3 : TP_MAX_BITS;
    for (size_t round = 0; round < in->agreements; round++)
        for (size_t n = TP_MIN_SHARES; n <= TP_MAX_SHARES; n++)
            for (size_t k = least_k; k <= most_k; k++) {
                if (!agree_at(in, (point){n, k, splits ? 3329 : random_within(least_modulus(in, k), UINT16_MAX)}))
                    return false;
                calls += 3;
            }
    printf("agreement: %zu calls for %s, accepted and refused\n", calls, in->name);
    return true;
}
