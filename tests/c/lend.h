/* Checks that are counted, and the buffers that are lent to a call. */
#ifndef LEND_H
#define LEND_H

#include <stdbool.h>
#include <stddef.h>
#include <stdint.h>

/* In the exact pass a buffer is a heap block of the lent size, or a null pointer for size 0, and content that no call may read is left
 * undefined: valgrind sees an access outside the block and a decision by such content. In the guarded pass guard bytes lie on both sides
 * of the buffer, and that content is filled. */
enum pass { EXACT, GUARDED };

extern enum pass pass;

void check(bool holds, const char *condition, const char *file, int line);
#define CHECK(condition) check((condition), #condition, __FILE__, __LINE__)

/* A case in a table begins with its line. */
#define CASE(...) {__LINE__, __VA_ARGS__}
#define COUNT(table) (sizeof(table) / sizeof *(table))

/* The case that the next checks belong to, in a table of the same file. */
void begin_case(const char *file, int line);
#define BEGIN_CASE(c) begin_case(__FILE__, (c)->line)

/* Prints how many checks there were. Answers the exit status. */
int report(void);

typedef struct {
    const uint16_t *at;
    size_t len;
} list;

#define LIST(...) {(const uint16_t[]){__VA_ARGS__}, sizeof((const uint16_t[]){__VA_ARGS__}) / sizeof(uint16_t)}
#define NONE {NULL, 0}

/* The given bytes behind those skipped are the caller's. The others, up to size, are content that no call may read. */
typedef struct {
    unsigned char *block;
    unsigned char *before;
    void *at;
    size_t skipped;
    size_t given;
    size_t size;
} lent;

lent lend_bytes(const void *content, size_t given, size_t size);
/* A list of words, and spare words behind it. */
lent lend(list words, size_t spare);
/* The same with others before it. */
lent lend_within(size_t others, list words, size_t spare);
/* Words for a call to write. */
lent lend_room(size_t words);

/* A lent list of words, as the two arguments of a call. */
#define WORDS(buffer) (buffer).at, (buffer).size / sizeof(uint16_t)

/* Checks that the first bytes are those written, that the rest is as it was lent and that the guards are whole, and frees the buffer. */
void take_back(lent buffer, const void *written, size_t size);
void take_back_kept(lent buffer);
/* The same for a buffer whose first words the call may have written. They are copied. */
void take_back_words(lent buffer, uint16_t *words, size_t count);

/* The end of so many bytes or more, behind which nothing can be read or written. They are kept to the end. */
void *map_edge(size_t size);

/* Size 0 is equal, whatever the pointers. */
bool equal(const void *a, const void *b, size_t size);

/* A number below the bound, which is not 0. */
uint16_t random_below(uint32_t bound);

#endif
