/* A sample from C or C++: made, opened and centred. It prints 'shares 7 11, sample 1'. */
#include <stdio.h>

#include "tinplateau.h"

int main(void)
{
    const uint16_t x[2] = {1, 0}, y[2] = {1, 1}, words[TP_SAMPLE_WORDS(2, 1)] = {5, 3, 10, 16};
    uint16_t out[2], work[TP_SAMPLE_WORK(2)];
    tp_answer answer = tp_sample(2, 1, 17, x, 2, y, 2, words, TP_SAMPLE_WORDS(2, 1), 0, out, 2, work, TP_SAMPLE_WORK(2));
    if (answer.code != TP_ACCEPTED) {
        fprintf(stderr, "refused %u %zu\n", answer.code, answer.value);
        return 1;
    }
    tp_opened_residue residue = tp_open_residue(2, 17, out, 2);
    tp_signed sample = tp_centred(17, residue.opened);
    printf("shares %d %d, sample %d\n", out[0], out[1], sample.value);
    return residue.code != TP_ACCEPTED || sample.code != TP_ACCEPTED;
}
