/* Masking, opening and weighing, and the published parameter sets. */
#include "client.h"

void mask(const struct mask_case *c, size_t spare, uint16_t shares[SHARES])
{
    lent masks = lend(c->masks, 0), out = lend_room(c->out + spare);
    tp_answer answer = tp_mask(c->n, c->k, (tp_string){c->value}, WORDS(masks), WORDS(out));
    CHECK(answer.code == c->answer.code);
    CHECK(answer.value == c->answer.value);
    take_back_kept(masks);
    take_back_words(out, shares, c->answer.code == 0 ? c->n : 0);
    check_shares(shares, c->shares);
}

static void mask_all(const struct mask_case *cases, size_t count)
{
    for (size_t i = 0; i < count; i++) {
        uint16_t shares[SHARES];
        BEGIN_CASE(&cases[i]);
        mask(&cases[i], 0, shares);
        if (cases[i].answer.code == 0)
            mask(&cases[i], SPARE, shares);
    }
}

static void mask_accepted(void)
{
    const struct mask_case cases[] = {
        CASE(3, 4, 10, LIST(3, 12), 3, {0, 3}, LIST(3, 12, 5)), /* e */
        CASE(2, 1, 1, LIST(1), 2, {0, 2}, LIST(1, 0)),
        CASE(2, 16, 65535, LIST(0), 2, {0, 2}, LIST(0, 65535)),
        CASE(8, 16, 0, LIST(1, 2, 4, 8, 16, 32, 32768), 8, {0, 8}, LIST(1, 2, 4, 8, 16, 32, 32768, 32831)),
    };
    mask_all(cases, COUNT(cases));
}

/* For each number one call with nothing else wrong, and one in which all that is asked later is wrong too. */
static void mask_refused(void)
{
    const struct mask_case cases[] = {
        CASE(1, 4, 10, LIST(3), 3, {1, 0}, NONE),
        CASE(9, 4, 10, LIST(1, 2, 3, 4, 5, 6, 7, 8), 9, {1, 0}, NONE),
        CASE(0, 0, 10, NONE, 0, {1, 0}, NONE),
        CASE(SIZE_MAX, 17, 65535, LIST(65535), 0, {1, 0}, NONE),
        CASE(3, 0, 0, LIST(0, 0), 3, {2, 0}, NONE),
        CASE(3, 17, 10, LIST(3, 12), 3, {2, 0}, NONE),
        CASE(3, 0, 10, NONE, 0, {2, 0}, NONE),
        CASE(3, SIZE_MAX, 65535, LIST(65535), 0, {2, 0}, NONE),
        CASE(3, 4, 16, LIST(3, 12), 3, {12, 0}, NONE),
        CASE(3, 15, 32768, LIST(65535), 2, {12, 0}, NONE),
        CASE(3, 4, 10, LIST(3), 3, {13, 0}, NONE),
        CASE(3, 4, 10, LIST(3, 12, 5), 3, {13, 0}, NONE),
        CASE(3, 4, 10, NONE, 0, {13, 0}, NONE),
        CASE(3, 4, 10, LIST(16), 2, {13, 0}, NONE),
        CASE(3, 4, 10, LIST(16, 12), 3, {14, 0}, NONE),
        CASE(3, 4, 10, LIST(3, 16), 3, {14, 1}, NONE),
        CASE(4, 4, 10, LIST(3, 16, 17), 0, {14, 1}, NONE),
        CASE(3, 4, 10, LIST(3, 12), 2, {10, 0}, NONE),
        CASE(3, 4, 10, LIST(3, 12), 0, {10, 0}, NONE),
    };
    mask_all(cases, COUNT(cases));
}

static void open_strings(void)
{
    const struct {
        int line;
        size_t n, k;
        list shares;
        tp_opened_string answer;
    } cases[] = {
        CASE(3, 4, LIST(3, 12, 5), {0, 0, {10}}), /* e */
        CASE(2, 16, LIST(65535, 0), {0, 0, {65535}}),
        CASE(8, 8, LIST(1, 2, 4, 8, 16, 32, 64, 128), {0, 0, {255}}),
        CASE(1, 4, LIST(3), {1, 0, {0}}),
        CASE(9, 4, LIST(1, 2, 3, 4, 5, 6, 7, 8, 9), {1, 0, {0}}),
        CASE(1, 0, NONE, {1, 0, {0}}),
        CASE(3, 0, LIST(0, 0, 0), {2, 0, {0}}),
        CASE(3, 17, LIST(3, 12, 5), {2, 0, {0}}),
        CASE(3, 17, NONE, {2, 0, {0}}),
        CASE(3, 4, LIST(3, 12), {4, 0, {0}}),
        CASE(3, 4, LIST(3, 12, 5, 0), {4, 0, {0}}),
        CASE(3, 4, NONE, {4, 0, {0}}),
        CASE(3, 4, LIST(16, 12), {4, 0, {0}}),
        CASE(3, 4, LIST(16, 12, 5), {6, 0, {0}}),
        CASE(3, 4, LIST(3, 16, 16), {6, 1, {0}}),
        CASE(3, 15, LIST(3, 12, 32768), {6, 2, {0}}),
    };
    for (size_t i = 0; i < COUNT(cases); i++) {
        BEGIN_CASE(&cases[i]);
        lent shares = lend(cases[i].shares, 0);
        tp_opened_string answer = tp_open_string(cases[i].n, cases[i].k, WORDS(shares));
        CHECK(answer.code == cases[i].answer.code);
        CHECK(answer.position == cases[i].answer.position);
        CHECK(answer.opened.bits == cases[i].answer.opened.bits);
        take_back_kept(shares);
    }
}

static void open_residues(void)
{
    const struct {
        int line;
        size_t n;
        uint16_t q;
        list shares;
        tp_opened_residue answer;
    } cases[] = {
        CASE(2, 17, LIST(7, 11), {0, 0, {1}}), /* a */
        CASE(2, 17, LIST(7, 9), {0, 0, {16}}), /* b */
        CASE(2, 3, LIST(2, 0), {0, 0, {2}}), /* c */
        CASE(3, 17, LIST(12, 4, 1), {0, 0, {0}}), /* d */
        CASE(8, 65535, LIST(65534, 65534, 65534, 65534, 65534, 65534, 65534, 65534), {0, 0, {65527}}),
        CASE(1, 17, LIST(7), {1, 0, {0}}),
        CASE(9, 17, LIST(1, 2, 3, 4, 5, 6, 7, 8, 9), {1, 0, {0}}),
        CASE(0, 0, NONE, {1, 0, {0}}),
        CASE(2, 2, LIST(1, 1), {3, 0, {0}}),
        CASE(2, 0, NONE, {3, 0, {0}}),
        CASE(3, 17, LIST(12, 4), {15, 0, {0}}),
        CASE(3, 17, LIST(12, 4, 1, 0), {15, 0, {0}}),
        CASE(3, 17, NONE, {15, 0, {0}}),
        CASE(3, 17, LIST(17, 4), {15, 0, {0}}),
        CASE(3, 17, LIST(17, 4, 1), {16, 0, {0}}),
        CASE(3, 17, LIST(12, 65535, 17), {16, 1, {0}}),
        CASE(3, 17, LIST(12, 4, 17), {16, 2, {0}}),
    };
    for (size_t i = 0; i < COUNT(cases); i++) {
        BEGIN_CASE(&cases[i]);
        lent shares = lend(cases[i].shares, 0);
        tp_opened_residue answer = tp_open_residue(cases[i].n, cases[i].q, WORDS(shares));
        CHECK(answer.code == cases[i].answer.code);
        CHECK(answer.position == cases[i].answer.position);
        CHECK(answer.opened.value == cases[i].answer.opened.value);
        take_back_kept(shares);
    }
}

static void weight_differences(void)
{
    const struct {
        int line;
        size_t k;
        tp_string x, y;
        tp_signed answer;
    } cases[] = {
        CASE(16, {65535}, {0}, {0, 0, 16}),
        CASE(16, {0}, {65535}, {0, 0, -16}),
        CASE(4, {10}, {7}, {0, 0, -1}),
        CASE(1, {1}, {1}, {0, 0, 0}),
        CASE(0, {0}, {0}, {2, 0, 0}),
        CASE(17, {1}, {1}, {2, 0, 0}),
        CASE(0, {1}, {1}, {2, 0, 0}),
        CASE(4, {16}, {7}, {12, 0, 0}),
        CASE(4, {7}, {16}, {12, 1, 0}),
        CASE(15, {32768}, {32768}, {12, 0, 0}),
    };
    for (size_t i = 0; i < COUNT(cases); i++) {
        BEGIN_CASE(&cases[i]);
        check_signed(tp_weight_difference(cases[i].k, cases[i].x, cases[i].y), cases[i].answer);
    }
}

static void parameter_sets(void)
{
    const struct {
        int line;
        size_t number;
        tp_parameters answer;
    } cases[] = {
        CASE(1, {0, 2, 3329}),
        CASE(2, {0, 3, 3329}),
        CASE(3, {0, 8, 12289}),
        CASE(4, {0, 16, 12289}),
        CASE(5, {0, 5, 8192}),
        CASE(6, {0, 4, 8192}),
        CASE(7, {0, 3, 8192}),
        CASE(0, {22, 0, 0}),
        CASE(8, {22, 0, 0}),
        CASE(SIZE_MAX, {22, 0, 0}),
    };
    for (size_t i = 0; i < COUNT(cases); i++) {
        BEGIN_CASE(&cases[i]);
        tp_parameters answer = tp_parameter_set(cases[i].number);
        CHECK(answer.code == cases[i].answer.code);
        CHECK(answer.k == cases[i].answer.k);
        CHECK(answer.q == cases[i].answer.q);
    }
}

void masking_cases(void)
{
    mask_accepted();
    mask_refused();
    open_strings();
    open_residues();
    weight_differences();
    parameter_sets();
}
