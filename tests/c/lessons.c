/* The texts of lesson files: the lesson program's, and the report. */
#include "client.h"

#include <stdio.h>
#include <stdlib.h>
#include <string.h>

enum { WORD_BUFFER = 1792, FILE_LIMIT = 60000, TEXT_BASE = 45, REPORT_ROOM = 1200 };

#define HEADER "no n k q used sample shares\n"

/* Bytes of a file, which may hold zeros. */
typedef struct {
    const char *at;
    size_t len;
} bytes;

#define BYTES(literal) {(literal), sizeof(literal) - 1}
#define BUT_LAST(literal) {(literal), sizeof(literal) - 2}

/* Records of the reference values, as they lie in a file. */
#define PM_2_1_17 "PM\2\1\21\0"
#define A PM_2_1_17 "XB\1\0\0\0" "YB\1\0\1\0" "RW\4\0" "\5\0\3\0\12\0\20\0"
#define B PM_2_1_17 "YB\0\0\1\0" "XB\0\0\0\0" "RW\4\0" "\5\0\3\0\12\0\16\0"
#define C "PM\2\1\3\0" "XB\1\0\1\0" "YB\1\0\0\0" "RW\4\0" "\0\0\0\0\0\0\0\0"
#define D "PM\3\1\21\0" "XB\1\0\0\0\1\0" "YB\0\0\0\0\0\0" "RW\14\0" "\1\0\2\0\3\0\4\0\5\0\6\0\0\0\0\0\0\0\0\0\0\0\0\0"

/* A sample of 2 with k 2. */
#define E "PM\2\2\5\0" "XB\3\0\0\0" "YB\0\0\0\0" "RW\10\0" "\0\0\0\0\0\0\0\0\0\0\0\0\0\0\0\0"

/* A file, and what the two calls write for it. The words are what each leaves in front of the word buffer. */
struct lesson_case {
    int line;
    bytes file;
    const char *text, *report;
    list words;
};

static size_t text_room(size_t file_len)
{
    return file_len > FILE_LIMIT ? TEXT_BASE : 3 * file_len + TEXT_BASE;
}

/* The call is accepted, and the text is the one expected. */
static void write_text(text_call *call, const struct lesson_case *c, const char *expected, size_t room, size_t spare)
{
    size_t text_len = strlen(expected);
    lent file = lend_bytes(c->file.at, c->file.at == NULL ? 0 : c->file.len, c->file.len);
    lent words = lend_room(WORD_BUFFER + spare);
    lent text = lend_bytes(NULL, 0, room + spare);
    tp_answer answer = call(file.at, file.size, WORDS(words), text.at, text.size);
    CHECK(answer.code == 0);
    CHECK(answer.value == text_len);
    take_back_kept(file);
    take_back(words, c->words.at, c->words.len * sizeof *c->words.at);
    take_back(text, expected, text_len);
}

/* Both texts, with as much room as each call asks for and with more. */
static void write_texts(const struct lesson_case *c)
{
    const size_t spares[] = {0, 7};
    for (size_t i = 0; i < COUNT(spares); i++) {
        write_text(tp_lesson_text, c, c->text, text_room(c->file.len), spares[i]);
        write_text(tp_report_text, c, c->report, REPORT_ROOM, spares[i]);
    }
}

/* A file that is refused behind the samples of these lines: the report is the refusal's line alone. */
#define REFUSED(file, lines, refusal, words) CASE(file, HEADER lines refusal, refusal, words)

static void lessons_accepted(void)
{
    const struct lesson_case cases[] = {
        CASE(BYTES(A), HEADER "1 2 1 17 4 1 7 11\n", "1 1 1 4\n1 1 1\n", LIST(5, 3, 10, 16)),
        CASE(BYTES(""), HEADER, "0 0 0\n", NONE),
        CASE(BYTES(A B C D), HEADER "1 2 1 17 4 1 7 11\n2 2 1 17 4 -1 7 9\n3 2 1 3 4 -1 2 0\n4 3 1 17 12 0 12 4 1\n",
             "-1 2 1 4\n0 1 2 4\n1 1 1 4\n-1 3 4\n", LIST(1, 2, 3, 4, 5, 6, 0, 0, 0, 0, 0, 0)),
        CASE(BYTES(D B), HEADER "1 3 1 17 12 0 12 4 1\n2 2 1 17 4 -1 7 9\n", "-1 1 1 4\n0 1 2 4\n-1 1 2\n",
             LIST(5, 3, 10, 14, 5, 6, 0, 0, 0, 0, 0, 0)),
        CASE(BYTES(E), HEADER "1 2 2 5 8 2 2 0\n", "2 1 1 16\n2 4 1\n", LIST(0, 0, 0, 0, 0, 0, 0, 0)),
        CASE(BYTES(E A), HEADER "1 2 2 5 8 2 2 0\n2 2 1 17 4 1 7 11\n", "1 1\n2 1\n3 5 2\n", LIST(5, 3, 10, 16, 0, 0, 0, 0)),
        REFUSED(BUT_LAST(A), "", "refused 19 18\n", NONE),
        REFUSED(BYTES(A "PX"), "1 2 1 17 4 1 7 11\n", "refused 18 30\n", LIST(5, 3, 10, 16)),
        REFUSED(BYTES(A "P"), "1 2 1 17 4 1 7 11\n", "refused 19 30\n", LIST(5, 3, 10, 16)),
        REFUSED(BYTES(E A "PM\1"), "1 2 2 5 8 2 2 0\n2 2 1 17 4 1 7 11\n", "refused 19 68\n", LIST(5, 3, 10, 16, 0, 0, 0, 0)),
        REFUSED(BYTES("PM\1\1\21\0"), "", "refused 1 0\n", NONE),
        REFUSED(BYTES("PM\2\0\21\0"), "", "refused 2 0\n", NONE),
        REFUSED(BYTES("PM\2\20\40\0"), "", "refused 3 0\n", NONE),
        REFUSED(BYTES(PM_2_1_17 "YB\2\0\0\0" "XB\1\0\2\0" "RW\0\0"), "", "refused 6 12\n", NONE),
        REFUSED(BYTES(PM_2_1_17 "XB\1\0\0\0" "YB\1\0\2\0" "RW\0\0"), "", "refused 7 12\n", NONE),
        REFUSED(BYTES(PM_2_1_17 "XB\1\0\0\0" "YB\1\0\1\0" "RW\3\0" "\5\0\3\0\12\0"), "", "refused 8 18\n", LIST(5, 3, 10)),
        REFUSED(BYTES(PM_2_1_17 "XB\1\0\0\0" "YB\1\0\1\0" "RW\4\0" "\5\0\3\0\21\0\20\0"), "", "refused 9 18\n", LIST(5, 3, 17, 16)),
        REFUSED(BYTES(PM_2_1_17 "XB\1\0\0\0" "YB\1\0\1\0" "RW\1\7"), "", "refused 20 18\n", NONE),
    };
    for (size_t i = 0; i < COUNT(cases); i++) {
        BEGIN_CASE(&cases[i]);
        write_texts(&cases[i]);
    }
}

/* The longest file: 2,000 samples of 30 bytes. */
static void longest_file(void)
{
    enum { SAMPLES = FILE_LIMIT / (sizeof A - 1) };
    char *file = malloc(FILE_LIMIT), *text = malloc(3 * FILE_LIMIT);
    begin_case(__FILE__, __LINE__);
    CHECK(file != NULL && text != NULL);
    size_t len = (size_t)sprintf(text, HEADER);
    for (size_t i = 0; i < SAMPLES; i++) {
        memcpy(file + i * (sizeof A - 1), A, sizeof A - 1);
        len += (size_t)sprintf(text + len, "%zu 2 1 17 4 1 7 11\n", i + 1);
    }
    write_texts(&(struct lesson_case)CASE({file, FILE_LIMIT}, text, "1 2000 1 4\n2000 2000 2000\n", LIST(5, 3, 10, 16)));
    free(file);
    free(text);
}

/* A file that is too long is not looked at: its bytes are not given. */
static void file_too_long(void)
{
    begin_case(__FILE__, __LINE__);
    const bytes file = {NULL, FILE_LIMIT + 1};
    write_texts(&(struct lesson_case)REFUSED(file, "", "refused 21 0\n", NONE));
}

/* A word or text buffer that is too short. The file is not looked at. */
static void lessons_refused(void)
{
    const struct {
        int line;
        text_call *call;
        size_t file, words, text;
        uint32_t code;
    } cases[] = {
        CASE(tp_lesson_text, 30, WORD_BUFFER - 1, 3 * 30 + TEXT_BASE, 8),
        CASE(tp_lesson_text, 0, WORD_BUFFER - 1, TEXT_BASE, 8),
        CASE(tp_lesson_text, 30, 0, 0, 8),
        CASE(tp_lesson_text, 0, 0, 0, 8),
        CASE(tp_lesson_text, 30, WORD_BUFFER, 3 * 30 + TEXT_BASE - 1, 10),
        CASE(tp_lesson_text, 30, WORD_BUFFER, 0, 10),
        CASE(tp_lesson_text, 0, WORD_BUFFER, TEXT_BASE - 1, 10),
        CASE(tp_lesson_text, FILE_LIMIT, WORD_BUFFER, 3 * FILE_LIMIT + TEXT_BASE - 1, 10),
        CASE(tp_lesson_text, FILE_LIMIT + 1, WORD_BUFFER, TEXT_BASE - 1, 10),
        CASE(tp_lesson_text, FILE_LIMIT + 1, WORD_BUFFER - 1, 0, 8),
        CASE(tp_report_text, 30, WORD_BUFFER - 1, REPORT_ROOM, 8),
        CASE(tp_report_text, 0, WORD_BUFFER - 1, REPORT_ROOM, 8),
        CASE(tp_report_text, 0, 0, 0, 8),
        CASE(tp_report_text, 30, WORD_BUFFER, REPORT_ROOM - 1, 10),
        CASE(tp_report_text, 30, WORD_BUFFER, 0, 10),
        CASE(tp_report_text, 0, WORD_BUFFER, REPORT_ROOM - 1, 10),
        CASE(tp_report_text, FILE_LIMIT, WORD_BUFFER, REPORT_ROOM - 1, 10),
        CASE(tp_report_text, FILE_LIMIT + 1, WORD_BUFFER, REPORT_ROOM - 1, 10),
        CASE(tp_report_text, FILE_LIMIT + 1, WORD_BUFFER - 1, REPORT_ROOM - 1, 8),
    };
    for (size_t i = 0; i < COUNT(cases); i++) {
        BEGIN_CASE(&cases[i]);
        lent file = lend_bytes(NULL, 0, cases[i].file), words = lend_room(cases[i].words), text = lend_bytes(NULL, 0, cases[i].text);
        tp_answer answer = cases[i].call(file.at, file.size, WORDS(words), text.at, text.size);
        CHECK(answer.code == cases[i].code);
        CHECK(answer.value == 0);
        take_back_kept(file);
        take_back_kept(words);
        take_back_kept(text);
    }
}

void lesson_cases(void)
{
    lessons_accepted();
    longest_file();
    file_too_long();
    lessons_refused();
}
