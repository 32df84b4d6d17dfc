/* The step records of a sample, to standard output. The sample is the argument, 'n k q | x | y | words' in decimal, or else reference value a.
 * At a refusal a line to standard error. tools/steps shows the records. */
#include <stdio.h>
#include <stdlib.h>
#include <string.h>

#include "tinplateau.h"

/* A list of the text. None needs more numbers than the words of a sample. */
typedef struct list {
    uint16_t at[TP_MAX_WORDS];
    size_t len;
} list;

/* Reads numbers up to a bar or the text's end, and answers what follows them; NULL where something else stands there. */
static const char *read_list(const char *text, list *read)
{
    for (text += strspn(text, " "); *text != '|' && *text != '\0'; text += strspn(text, " ")) {
        size_t digits = strspn(text, "0123456789");
        unsigned long number = strtoul(text, NULL, 10);
        if (digits == 0 || number > UINT16_MAX || read->len == TP_MAX_WORDS)
            return NULL;
        read->at[read->len++] = (uint16_t)number;
        text += digits;
    }
    return text;
}

int main(int argc, char **argv)
{
    static list part[4];
    static uint8_t records[TP_STEP_BYTES(TP_MAX_SHARES, TP_MAX_BITS)];
    uint16_t out[TP_MAX_SHARES], work[TP_SAMPLE_WORK(TP_MAX_SHARES)];
    const char *text = argc > 1 ? argv[1] : "2 1 17 | 1 0 | 1 1 | 5 3 10 16";
    for (int i = 0; i < 4 && text != NULL; i++) {
        text = read_list(text, &part[i]);
        if (text != NULL && i < 3)
            text = *text == '|' ? text + 1 : NULL;
    }
    if (argc > 2 || text == NULL || *text != '\0' || part[0].len != 3) {
        fputs("usage: steps ['n k q | x | y | words']\n", stderr);
        return 2;
    }
    size_t n = part[0].at[0], k = part[0].at[1];
    tp_answer answer = tp_sample_steps(n, k, part[0].at[2], part[1].at, part[1].len, part[2].at, part[2].len, part[3].at, part[3].len, out,
                                       TP_MAX_SHARES, work, TP_SAMPLE_WORK(TP_MAX_SHARES), records, sizeof records);
    if (answer.code != TP_ACCEPTED) {
        fprintf(stderr, "refused %u %zu\n", answer.code, answer.value);
        return 1;
    }
    if (fwrite(records, 1, TP_STEP_BYTES(n, k), stdout) != TP_STEP_BYTES(n, k) || fflush(stdout) != 0) {
        perror("steps");
        return 1;
    }
    return 0;
}
