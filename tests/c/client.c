/* A client of the C interface: every function, with every answer that it can give, and every buffer checked after each call. */
#include "client.h"

void check_shares(const uint16_t *shares, list expected)
{
    CHECK(equal(shares, expected.at, expected.len * sizeof *shares));
}

void check_signed(tp_signed answer, tp_signed expected)
{
    CHECK(answer.code == expected.code);
    CHECK(answer.position == expected.position);
    CHECK(answer.value == expected.value);
}

void draw(uint16_t *numbers, size_t count, uint32_t bound)
{
    for (size_t i = 0; i < count; i++)
        numbers[i] = random_below(bound);
}

/* B - 2Bb is B or -B. */
void convert_row(size_t n, uint32_t q, const uint16_t *b, const uint16_t *r, uint32_t row[SHARES])
{
    row[0] = b[0];
    for (size_t j = 1; j < n; j++) {
        row[j] = 0;
        for (size_t i = 0; i < j; i++, r++) {
            row[i] = (row[i] + q - *r) % q;
            row[j] = (row[j] + *r) % q;
        }
        for (size_t i = 0; i <= j; i++)
            row[i] = b[j] == 1 ? (q - row[i]) % q : row[i];
        row[0] = (row[0] + b[j]) % q;
    }
    for (size_t i = 0; i < n; i++) {
        for (size_t m = i + 1; m < n; m++, r++) {
            row[i] = (row[i] + *r) % q;
            row[m] = (row[m] + q - *r) % q;
        }
    }
}

tp_string open_string(size_t n, size_t k, const uint16_t *shares)
{
    lent buffer = lend((list){shares, n}, 0);
    tp_opened_string string = tp_open_string(n, k, WORDS(buffer));
    CHECK(string.code == 0 && string.position == 0);
    take_back_kept(buffer);
    return string.opened;
}

tp_residue open_residue(size_t n, uint16_t q, const uint16_t *shares)
{
    lent buffer = lend((list){shares, n}, 0);
    tp_opened_residue residue = tp_open_residue(n, q, WORDS(buffer));
    CHECK(residue.code == 0 && residue.position == 0);
    take_back_kept(buffer);
    return residue.opened;
}

/* Makes shares of a string, which open to it. */
static tp_string share_string(size_t n, size_t k, uint16_t shares[SHARES])
{
    uint16_t masks[SHARES], bits = random_below(1u << k);
    draw(masks, n - 1, 1u << k);
    mask(&(struct mask_case)CASE(n, k, bits, {masks, n - 1}, n, {0, n}, NONE), SPARE, shares);
    tp_string string = open_string(n, k, shares);
    CHECK(string.bits == bits);
    return string;
}

/* Two strings masked and sampled: the sample is their weight difference. */
static void sample_strings(size_t n, size_t k, uint16_t q)
{
    uint16_t x[SHARES], y[SHARES], words[SAMPLE_WORDS], shares[SHARES];
    size_t used = 2 * k * n * (n - 1);
    begin_case(__FILE__, __LINE__);
    tp_string x_string = share_string(n, k, x), y_string = share_string(n, k, y);
    draw(words, used, q);
    sample(&(struct sample_case)CASE(n, k, q, {x, n}, {y, n}, {words, used}, n, n, {0, used}, NONE), WITHIN, SPARE, shares);
    tp_signed centred = tp_centred(q, open_residue(n, q, shares)), difference = tp_weight_difference(k, x_string, y_string);
    CHECK(centred.code == 0 && centred.position == 0);
    CHECK(difference.code == 0 && difference.position == 0);
    CHECK(centred.value == difference.value);
}

/* The smallest modulus for k, two published ones, and the largest. */
static void sample_all_sizes(void)
{
    for (size_t n = 2; n <= SHARES; n++) {
        for (size_t k = 1; k <= BITS; k++) {
            const uint16_t moduli[] = {(uint16_t)(2 * k + 1), 3329, 12289, 65535};
            sample_strings(n, k, moduli[(n + k) % 4]);
        }
    }
}

static void run_pass(enum pass next)
{
    pass = next;
    masking_cases();
    centring_cases();
    conversion_cases();
    value_cases();
    value_refusals();
    sampler_cases();
    sample_all_sizes();
    start_cases();
    step_cases();
    step_refusals();
    polynomial_cases();
    area_cases();
    noise_cases();
    lesson_cases();
    size_cases();
}

int main(void)
{
    run_pass(EXACT);
    run_pass(GUARDED);
    return report();
}
