/* Every call of the header, its answer dropped. */
#include "tinplateau.h"

void drop(tp_string s, tp_residue r, uint16_t *words, uint8_t *bytes);

void drop(tp_string s, tp_residue r, uint16_t *words, uint8_t *bytes)
{
    tp_mask(2, 1, s, words, 1, words + 1, 2);
    tp_open_string(2, 1, words, 2);
    tp_open_residue(2, 17, words, 2);
    tp_centred(17, r);
    tp_weight_difference(1, s, s);
    tp_parameter_set(1);
    tp_convert_bit(2, 17, words, 2, words + 2, 2, 0, words + 4, 2);
    tp_convert_value(2, 1, 17, words, 2, words + 2, 2, words + 4, 2);
    tp_sample(2, 1, 17, words, 2, words + 2, 2, words + 4, 4, 0, words + 8, 2, words + 10, 2);
    tp_sample_steps(2, 1, 17, words, 2, words + 2, 2, words + 4, 4, words + 8, 2, words + 10, 2, bytes, 192);
    tp_sample_polynomial(2, 1, 17, 1, words, 2, words + 2, 2, words + 4, 4, words + 8, 2, words + 10, 2);
    tp_split_noise(2, 1, bytes, 256, words, 512, words + 512, 512);
    tp_lesson_text(bytes, 1, words, 1792, bytes + 1, 48);
    tp_report_text(bytes, 1, words, 1792, bytes + 1, 1200);
}
