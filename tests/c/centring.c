/* Centring: reference values, every residue of some moduli, and the half of every modulus. */
#include "client.h"

static void centred_values(void)
{
    const struct {
        int line;
        uint16_t q;
        tp_residue r;
        tp_signed answer;
    } cases[] = {
        CASE(17, {16}, {0, 0, -1}), /* b */
        CASE(3, {2}, {0, 0, -1}), /* c */
        CASE(33, {16}, {0, 0, 16}), /* f */
        CASE(33, {17}, {0, 0, -16}),
        CASE(8, {3}, {0, 0, 3}), /* g */
        CASE(8, {4}, {0, 0, 4}),
        CASE(8, {5}, {0, 0, -3}),
        CASE(3, {0}, {0, 0, 0}),
        CASE(65535, {32767}, {0, 0, 32767}),
        CASE(65535, {32768}, {0, 0, -32767}),
        CASE(65534, {32767}, {0, 0, 32767}),
        CASE(65534, {32768}, {0, 0, -32766}),
        CASE(2, {1}, {3, 0, 0}),
        CASE(2, {2}, {3, 0, 0}),
        CASE(0, {65535}, {3, 0, 0}),
        CASE(33, {33}, {17, 0, 0}),
        CASE(3, {65535}, {17, 0, 0}),
    };
    for (size_t i = 0; i < COUNT(cases); i++) {
        BEGIN_CASE(&cases[i]);
        check_signed(tp_centred(cases[i].q, cases[i].r), cases[i].answer);
    }
}

/* Answers whether it is right, so that a loop ends at the first residue that is not. */
static bool check_residue(uint32_t q, uint32_t r, tp_signed expected)
{
    tp_signed answer = tp_centred((uint16_t)q, (tp_residue){(uint16_t)r});
    bool right = answer.code == expected.code && answer.position == expected.position && answer.value == expected.value;
    CHECK(right);
    return right;
}

/* The residues from r on show the values from the first to the last, one by one. Answers the residue behind them. */
static uint32_t count_values(uint16_t q, uint32_t r, int32_t first, int32_t last)
{
    int32_t value = first;
    while (value <= last && check_residue(q, r, (tp_signed){0, 0, value})) {
        value++;
        r++;
    }
    return r;
}

/* Every residue, and every other number: values rise from 0 to the highest, and from the lowest to -1, which q - 1 shows. */
static void centred_residues(void)
{
    const struct {
        int line;
        uint16_t q;
        int32_t highest, lowest;
    } cases[] = {
        CASE(4, 2, -1),
        CASE(8, 4, -3),
        CASE(65534, 32767, -32766),
        CASE(65535, 32767, -32767),
    };
    for (size_t i = 0; i < COUNT(cases); i++) {
        uint16_t q = cases[i].q;
        BEGIN_CASE(&cases[i]);
        uint32_t r = count_values(q, 0, 0, cases[i].highest);
        r = count_values(q, r, cases[i].lowest, -1);
        CHECK(r == q);
        while (r <= UINT16_MAX && check_residue(q, r, (tp_signed){17, 0, 0}))
            r++;
    }
}

/* The values of 3 are 1, 0 and -1. With each modulus more there is one value more, by turns above the highest and below the lowest. */
static void centred_halves(void)
{
    int32_t highest = 1, lowest = -1;
    bool right = true;
    begin_case(__FILE__, __LINE__);
    for (uint32_t q = 3; q <= UINT16_MAX && right; q++) {
        uint32_t last = (uint32_t)highest;
        right = check_residue(q, last, (tp_signed){0, 0, highest}) && check_residue(q, last + 1, (tp_signed){0, 0, lowest}) &&
                check_residue(q, q - 1, (tp_signed){0, 0, -1}) && check_residue(q, q, (tp_signed){17, 0, 0});
        if (q % 2 == 0)
            lowest--;
        else
            highest++;
    }
}

void centring_cases(void)
{
    centred_values();
    centred_residues();
    centred_halves();
}
