/* GIVEN, an opened string or an opened residue, at a PLACE that takes one. */
#include "tinplateau.h"

#define VALUE tp_mask(2, 4, GIVEN, words, 1, words + 1, 2)
#define RESIDUE tp_centred(17, GIVEN)
#define X tp_weight_difference(4, GIVEN, string.opened)
#define Y tp_weight_difference(4, string.opened, GIVEN)

void use(tp_opened_string string, tp_opened_residue residue, uint16_t *words);

void use(tp_opened_string string, tp_opened_residue residue, uint16_t *words)
{
    (void)string;
    (void)residue;
    (void)words;
    (void)PLACE;
}
