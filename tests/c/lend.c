/* Checks that are counted, and the buffers that are lent to a call. */
#define _DEFAULT_SOURCE

#include "lend.h"

#include "seeded.h"

#include <stdio.h>
#include <stdlib.h>
#include <string.h>
#include <sys/mman.h>
#include <unistd.h>

enum { GUARD_SIZE = 512, GUARD = 0xA5 };

enum pass pass;

static unsigned long checks;
static unsigned long failed;
static const char *case_file = "";
static int case_line;

void begin_case(const char *file, int line)
{
    case_file = file;
    case_line = line;
}

void check(bool holds, const char *condition, const char *file, int line)
{
    checks++;
    if (holds)
        return;
    failed++;
    printf("%s:%d: %s (case %s:%d, %s pass)\n", file, line, condition, case_file, case_line, pass == EXACT ? "exact" : "guarded");
    fflush(stdout); /* it is there even if a later call crashes */
}

int report(void)
{
    printf("client: %lu checks, %lu failed\n", checks, failed);
    return failed == 0 ? EXIT_SUCCESS : EXIT_FAILURE;
}

static void require(bool holds)
{
    if (holds)
        return;
    fprintf(stderr, "client: no memory\n");
    exit(EXIT_FAILURE);
}

static void *allocate(size_t size)
{
    void *block = malloc(size);
    require(block != NULL);
    return block;
}

void *map_edge(size_t size)
{
    size_t page = (size_t)sysconf(_SC_PAGESIZE), used = (size + page - 1) / page * page;
    unsigned char *pages = mmap(NULL, used + page, PROT_READ | PROT_WRITE, MAP_PRIVATE | MAP_ANONYMOUS, -1, 0);
    require(pages != MAP_FAILED && mprotect(pages + used, page, PROT_NONE) == 0);
    return pages + used;
}

static void copy(void *to, const void *from, size_t size)
{
    if (size > 0)
        memcpy(to, from, size);
}

/* As words these are large, and neighbours differ. */
static void fill(unsigned char *bytes, size_t from, size_t to)
{
    for (size_t i = from; i < to; i++)
        bytes[i] = i % 2 == 0 ? 0xFF - i / 2 % 200 : 0xFF;
}

static lent exact(size_t size)
{
    unsigned char *block = size == 0 ? NULL : allocate(size);
    return (lent){.block = block, .at = block};
}

static lent guarded(size_t size)
{
    unsigned char *block = allocate(GUARD_SIZE + size + GUARD_SIZE);
    memset(block, GUARD, GUARD_SIZE + size + GUARD_SIZE);
    return (lent){.block = block, .at = block + GUARD_SIZE};
}

static lent lend_part(const void *content, size_t skipped, size_t given, size_t size)
{
    lent buffer = pass == EXACT ? exact(size) : guarded(size);
    buffer.skipped = skipped;
    buffer.given = given;
    buffer.size = size;
    if (pass == GUARDED)
        fill(buffer.at, 0, size);
    if (given > 0)
        copy((unsigned char *)buffer.at + skipped, content, given);
    buffer.before = allocate(size + 1);
    copy(buffer.before, buffer.at, size);
    return buffer;
}

lent lend_bytes(const void *content, size_t given, size_t size)
{
    return lend_part(content, 0, given, size);
}

lent lend_within(size_t others, list words, size_t spare)
{
    size_t size = sizeof *words.at;
    return lend_part(words.at, others * size, words.len * size, (others + words.len + spare) * size);
}

lent lend(list words, size_t spare)
{
    return lend_within(0, words, spare);
}

lent lend_room(size_t words)
{
    return lend((list)NONE, words);
}

bool equal(const void *a, const void *b, size_t size)
{
    return size == 0 || memcmp(a, b, size) == 0;
}

/* What was left undefined is not compared. */
static bool is_kept(const lent *buffer, size_t from)
{
    size_t to = pass == EXACT ? buffer->skipped + buffer->given : buffer->size;
    if (pass == EXACT && from < buffer->skipped)
        from = buffer->skipped;
    return to <= from || equal((const unsigned char *)buffer->at + from, buffer->before + from, to - from);
}

static bool is_guard(const unsigned char *bytes)
{
    size_t i = 0;
    while (i < GUARD_SIZE && bytes[i] == GUARD)
        i++;
    return i == GUARD_SIZE;
}

void take_back(lent buffer, const void *written, size_t size)
{
    CHECK(equal(buffer.at, written, size));
    CHECK(is_kept(&buffer, size));
    if (pass == GUARDED) {
        CHECK(is_guard(buffer.block));
        CHECK(is_guard(buffer.block + GUARD_SIZE + buffer.size));
    }
    free(buffer.before);
    free(buffer.block);
}

void take_back_kept(lent buffer)
{
    take_back(buffer, NULL, 0);
}

void take_back_words(lent buffer, uint16_t *words, size_t count)
{
    copy(words, buffer.at, count * sizeof *words);
    take_back(buffer, words, count * sizeof *words);
}

uint16_t random_below(uint32_t bound)
{
    static uint64_t state = 1;
    return seeded_below(&state, bound);
}
