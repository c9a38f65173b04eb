// The memory lent to the calls, and each call made once. Before a call all of it is filled with a pattern and the board is put in; `after` is the memory as it
// must stand afterwards, every byte of it. A comparison counts for a buffer that the call was lent; one that it was not lent must stand too, and counts only
// where it does not.
#ifndef LENT_H
#define LENT_H
#include "problem.h"
#include <inttypes.h>
#include <stdio.h>

enum { PATTERN = 0xa5 };

// More room than any call asks for, so that it shows whether the rest stays.
typedef struct {
    uint64_t words[3 * 34];
    uint8_t rules[6 * 254];
    uint64_t model[40];
    uint16_t list[260];
    uint64_t work[5200];
    uint8_t file[MOST_BYTES + 8];
    uint8_t out[2400];
} memory;

// How much of it is lent: numbers, bytes or entries.
typedef struct {
    size_t words, rules, model, list, work, file, out;
} lengths;

// The buffers, each a bit of the set that a call is lent.
enum { WORDS = 1, RULES = 2, MODEL = 4, LIST = 8, WORK = 16, FILE_BYTES = 32, OUT = 64 };

static memory lent, after;
static lengths len;
static unsigned buffers; // those that the last call was lent
static unsigned passed, failed;

static uint64_t packed(uint64_t number, uint64_t detail, uint64_t entries) { return number + (detail << 8) + (entries << 40); }

static uint64_t refused(uint64_t number, uint64_t place) { return packed(number, place, 0); }

static void expect(int good, const char *call, const char *what) {
    if (good) {
        passed++;
        return;
    }
    failed++;
    printf("board %s, %s: %s\n", board.name, call, what);
}

static void fill(void) {
    memset(&lent, PATTERN, sizeof lent);
    memset(&after, PATTERN, sizeof after);
}

// The board lent to a call on a problem, with as much room as exactly does; the file is one to be written.
static void lend(size_t work, size_t file) {
    fill();
    memcpy(lent.words, board.words, sizeof board.words);
    memcpy(lent.rules, board.rules, sizeof board.rules);
    memcpy(after.words, board.words, sizeof board.words);
    memcpy(after.rules, board.rules, sizeof board.rules);
    len = (lengths){board.words_len, board.rules_len, board.words_len / 3, board.rules_len / 6, work, file, 0};
}

// A file lent to a call that reads one, with as much room as exactly does.
static void lend_file(const uint8_t *file, size_t length) {
    fill();
    memcpy(lent.file, file, length);
    memcpy(after.file, file, length);
    len = (lengths){SIEVECREST_READ_NUMBERS, SIEVECREST_READ_BYTES, 0, 0, SIEVECREST_ADVISE_WORK, length, SIEVECREST_LINES_BYTES};
}

static void clear_work(void) { memset(after.work, 0, len.work * sizeof after.work[0]); }

static void compare_buffer(unsigned buffer, const void *got, const void *wanted, size_t bytes, const char *call, const char *name) {
    int same = memcmp(got, wanted, bytes) == 0;
    if (buffers & buffer || !same) expect(same, call, name);
}

// The answer and all memory held to what is wanted.
static void compare(const char *call, uint64_t got, uint64_t wanted) {
    if (got != wanted) printf("came %" PRIu64 " with %" PRIu64 " and %" PRIu64 "\n", got & 255, got >> 8 & UINT32_MAX, got >> 40);
    expect(got == wanted, call, "another answer");
    compare_buffer(WORDS, lent.words, after.words, sizeof lent.words, call, "words");
    compare_buffer(RULES, lent.rules, after.rules, sizeof lent.rules, call, "rules");
    compare_buffer(MODEL, lent.model, after.model, sizeof lent.model, call, "model");
    compare_buffer(LIST, lent.list, after.list, sizeof lent.list, call, "list");
    compare_buffer(WORK, lent.work, after.work, sizeof lent.work, call, "work memory");
    compare_buffer(FILE_BYTES, lent.file, after.file, sizeof lent.file, call, "file");
    compare_buffer(OUT, lent.out, after.out, sizeof lent.out, call, "out");
}

static uint64_t call_check(void) {
    buffers = WORDS | RULES;
    return sievecrest_check(lent.words, len.words, lent.rules, len.rules, board.limit);
}

static uint64_t call_tighten(void) {
    buffers = WORDS | RULES | WORK;
    return sievecrest_tighten(lent.words, len.words, lent.rules, len.rules, lent.work, len.work);
}

static uint64_t call_solve(void) {
    buffers = WORDS | RULES | MODEL | WORK;
    return sievecrest_solve(lent.words, len.words, lent.rules, len.rules, board.limit, lent.model, len.model, lent.work, len.work);
}

static uint64_t call_explain(uint64_t rule, uint64_t place, uint64_t bit) {
    buffers = WORDS | RULES | LIST;
    return sievecrest_explain(lent.words, len.words, lent.rules, len.rules, rule, place, bit, lent.list, len.list);
}

static uint64_t call_cause(void) {
    buffers = WORDS | RULES | LIST | WORK;
    return sievecrest_cause(lent.words, len.words, lent.rules, len.rules, board.limit, lent.list, len.list, lent.work, len.work);
}

static uint64_t call_write(void) {
    buffers = WORDS | RULES | FILE_BYTES;
    return sievecrest_write(lent.words, len.words, lent.rules, len.rules, board.limit, lent.file, len.file);
}

static uint64_t call_read(void) {
    buffers = FILE_BYTES | WORDS | RULES;
    return sievecrest_read(lent.file, len.file, lent.words, len.words, lent.rules, len.rules);
}

static uint64_t call_advise(void) {
    buffers = FILE_BYTES | OUT | WORK;
    return sievecrest_advise(lent.file, len.file, lent.out, len.out, lent.work, len.work);
}

#endif
