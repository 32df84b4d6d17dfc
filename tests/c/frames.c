/* Makes eight shares of a string and opens them, and opens eight shares modulo q: what tests/frames steps through. */
#include "tinplateau.h"

int main(void)
{
    const uint16_t masks[7] = {1, 2, 3, 5, 8, 13, 21}, residues[8] = {7, 11, 12288, 6000, 1, 2, 0, 12000};
    uint16_t shares[8];
    tp_answer masked = tp_mask(8, 16, (tp_string){40000}, masks, 7, shares, 8);
    tp_opened_string string = tp_open_string(8, 16, shares, 8);
    tp_opened_residue residue = tp_open_residue(8, 12289, residues, 8);
    return masked.code != TP_ACCEPTED || string.opened.bits != 40000 || residue.opened.value != 5731;
}
