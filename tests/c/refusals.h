// Every refusal with its number and place, through every call that has a part of it. Each stands beside a later fault, which must not come instead.
#ifndef REFUSALS_H
#define REFUSALS_H
#include "lent.h"

static void refused_by_files(uint64_t number, uint64_t place) {
    static uint8_t file[MOST_BYTES];
    char line[40];
    size_t length = encode(file);
    sprintf(line, "refused %u %u\n", (unsigned)number, (unsigned)place);
    lend_file(file, length);
    compare("read", call_read(), refused(number, place));
    lend_file(file, length);
    clear_work();
    memcpy(after.out, line, strlen(line));
    compare("advise", call_advise(), packed(SIEVECREST_OK, strlen(line), 0));
}

static void refused_by_all(uint64_t number, uint64_t place) {
    uint64_t wanted = refused(number, place);
    lend(0, 0);
    compare("check", call_check(), wanted);
    lend(SIEVECREST_SOLVE_WORK, 0);
    compare("solve", call_solve(), wanted);
    lend(SIEVECREST_CAUSE_WORK, 0);
    compare("cause", call_cause(), wanted);
    lend(0, MOST_BYTES);
    compare("write", call_write(), wanted);
    if (number == SIEVECREST_REFUSED_LIMIT) return;
    lend(SIEVECREST_TIGHTEN_WORK, 0);
    compare("tighten", call_tighten(), wanted);
    lend(0, 0);
    len.list = SIEVECREST_REASON_ENTRIES;
    compare("explain", call_explain(0, SIEVECREST_PLACE_A, 0), wanted);
}

// A board on which every fault can be made: words of 1, 4, 8 and 12 bits, all open.
static void sound(const char *name) {
    begin(name, 7);
    word(1, 0, 1), word(4, 0, 15), word(8, 0, 255), word(12, 0, 4095), word(4, 0, 15);
}

static void refused_word(const char *name, uint64_t width, uint64_t lo, uint64_t hi, uint64_t number) {
    sound(name);
    word(width, lo, hi);
    word(0, 1, 0); // a later fault
    refused_by_all(number, 5);
    refused_by_files(number, 5);
}

static void refused_rule(unsigned kind, unsigned r, unsigned a, unsigned b, unsigned s, unsigned k, uint64_t number) {
    char name[60];
    sprintf(name, "rule %u %u %u %u %u %u", kind, r, a, b, s, k);
    sound(name);
    rule(SIEVECREST_KIND_ULE, 0, 1, 4, 0, 0);
    rule(kind, r, a, b, s, k);
    rule(0, 255, 0, 0, 0, 0); // a later fault
    board.limit = SIEVECREST_MAX_LIMIT + 1;
    refused_by_all(number, 1);
    refused_by_files(number, 1);
}

static void faulty_words(void) {
    refused_word("width 0", 0, 0, 0, SIEVECREST_REFUSED_WIDTH);
    refused_word("width 65", 65, 1, 0, SIEVECREST_REFUSED_WIDTH);
    refused_word("width 255", 255, 0, 1, SIEVECREST_REFUSED_WIDTH);
    refused_word("lo above hi", 4, 4, 3, SIEVECREST_REFUSED_TABLE);
    refused_word("hi above the width", 4, 0, 16, SIEVECREST_REFUSED_TABLE);
    refused_word("both above the width", 63, (uint64_t)1 << 63, (uint64_t)1 << 63, SIEVECREST_REFUSED_TABLE);
    sound("width 2^32 + 4");
    word(((uint64_t)1 << 32) + 4, 0, 15); // no file can say this
    refused_by_all(SIEVECREST_REFUSED_WIDTH, 5);
}

static void faulty_rules(void) {
    refused_rule(0, 0, 0, 0, 0, 0, SIEVECREST_REFUSED_KIND);
    refused_rule(15, 0, 0, 0, 0, 0, SIEVECREST_REFUSED_KIND);
    refused_rule(255, 9, 9, 9, 9, 9, SIEVECREST_REFUSED_KIND);
    refused_rule(SIEVECREST_KIND_COPY, 5, 1, 0, 0, 0, SIEVECREST_REFUSED_FIELD);
    refused_rule(SIEVECREST_KIND_ADD, 1, 1, 255, 0, 0, SIEVECREST_REFUSED_FIELD);
    refused_rule(SIEVECREST_KIND_NOT, 1, 4, 1, 0, 0, SIEVECREST_REFUSED_FIELD);
    refused_rule(SIEVECREST_KIND_NE, 1, 1, 4, 0, 0, SIEVECREST_REFUSED_FIELD);
    refused_rule(SIEVECREST_KIND_XOR, 1, 1, 4, 0, 1, SIEVECREST_REFUSED_FIELD);
    refused_rule(SIEVECREST_KIND_ITE, 1, 1, 4, 5, 0, SIEVECREST_REFUSED_FIELD);
    refused_rule(SIEVECREST_KIND_COPY, 1, 2, 0, 0, 0, SIEVECREST_REFUSED_FIT);
    refused_rule(SIEVECREST_KIND_NOT, 1, 2, 0, 0, 0, SIEVECREST_REFUSED_FIT);
    refused_rule(SIEVECREST_KIND_AND, 1, 4, 2, 0, 0, SIEVECREST_REFUSED_FIT);
    refused_rule(SIEVECREST_KIND_OR, 2, 1, 4, 0, 0, SIEVECREST_REFUSED_FIT);
    refused_rule(SIEVECREST_KIND_XOR, 1, 2, 4, 0, 0, SIEVECREST_REFUSED_FIT);
    refused_rule(SIEVECREST_KIND_ADD, 1, 2, 4, 0, 0, SIEVECREST_REFUSED_FIT);
    refused_rule(SIEVECREST_KIND_ITE, 1, 1, 4, 1, 0, SIEVECREST_REFUSED_FIT);
    refused_rule(SIEVECREST_KIND_SLICE, 1, 2, 0, 0, 5, SIEVECREST_REFUSED_FIT);
    refused_rule(SIEVECREST_KIND_JOIN, 2, 1, 2, 0, 0, SIEVECREST_REFUSED_FIT);
    refused_rule(SIEVECREST_KIND_SHL, 1, 2, 0, 0, 1, SIEVECREST_REFUSED_FIT);
    refused_rule(SIEVECREST_KIND_SHR, 2, 1, 0, 0, 255, SIEVECREST_REFUSED_FIT);
    refused_rule(SIEVECREST_KIND_ULE, 0, 1, 2, 0, 0, SIEVECREST_REFUSED_FIT);
    refused_rule(SIEVECREST_KIND_ULT, 0, 1, 2, 0, 0, SIEVECREST_REFUSED_FIT);
    refused_rule(SIEVECREST_KIND_NE, 0, 1, 2, 0, 0, SIEVECREST_REFUSED_FIT);
}

// Board L, and records that are cut short.
static void sizes(void) {
    begin("limit 1,000,000", SIEVECREST_MAX_LIMIT);
    check(SIEVECREST_OK);
    board.name = "limit 1,000,001";
    board.limit++;
    refused_by_all(SIEVECREST_REFUSED_LIMIT, 0);
    refused_by_files(SIEVECREST_REFUSED_LIMIT, 0);
    begin("32 words", 0);
    for (int i = 0; i < 32; i++) word(1, 0, 0);
    check(SIEVECREST_OK);
    board.name = "33 words";
    word(0, 0, 0);
    refused_by_all(SIEVECREST_REFUSED_SIZE, 0);
    refused_by_files(SIEVECREST_REFUSED_LAYOUT, 1);
    begin("252 rules", 0);
    word(1, 0, 0);
    for (int i = 0; i < 252; i++) rule(SIEVECREST_KIND_COPY, 0, 0, 0, 0, 0);
    check(SIEVECREST_OK);
    board.name = "253 rules";
    rule(0, 0, 0, 0, 0, 0);
    refused_by_all(SIEVECREST_REFUSED_SIZE, 0);
    refused_by_files(SIEVECREST_REFUSED_LAYOUT, 5);
    sound("a word cut short");
    board.words_len--;
    refused_by_all(SIEVECREST_REFUSED_SIZE, 0);
    sound("a rule cut short");
    rule(SIEVECREST_KIND_COPY, 0, 0, 0, 0, 0);
    board.rules_len--;
    refused_by_all(SIEVECREST_REFUSED_SIZE, 0);
}

static void questions(void) {
    begin("no such question", 0);
    word(4, 8, 15), word(4, 0, 15);
    rule(SIEVECREST_KIND_ULE, 0, 0, 1, 0, 0);
    const uint64_t asked[][3] = {{1, 1, 0}, {UINT64_MAX, 1, 0}, {0, 0, 0}, {0, 3, 0}, {0, 4, 0}, {0, UINT64_MAX, 0}, {0, 1, 3}, {0, 1, 4}, {0, 1, UINT64_MAX}};
    for (size_t i = 0; i < sizeof asked / sizeof asked[0]; i++) explain(asked[i][0], asked[i][1], asked[i][2], refused(SIEVECREST_REFUSED_ASK, 0), NULL);
}

// Each lent buffer one too short, on a board that is refused otherwise too: SIZE comes first.
static void short_buffers(void) {
    const uint64_t size = refused(SIEVECREST_REFUSED_SIZE, 0);
    sound("a buffer one too short");
    word(0, 0, 0);
    rule(SIEVECREST_KIND_NE, 0, 1, 4, 0, 0);
    lend(SIEVECREST_TIGHTEN_WORK - 1, 0);
    compare("tighten, work", call_tighten(), size);
    lend(SIEVECREST_SOLVE_WORK - 1, 0);
    compare("solve, work", call_solve(), size);
    lend(SIEVECREST_SOLVE_WORK, 0);
    len.model--;
    compare("solve, model", call_solve(), size);
    lend(0, 0);
    len.list = SIEVECREST_REASON_ENTRIES - 1;
    compare("explain, list", call_explain(9, 9, 9), size);
    lend(SIEVECREST_CAUSE_WORK - 1, 0);
    compare("cause, work", call_cause(), size);
    lend(SIEVECREST_CAUSE_WORK, 0);
    len.list--;
    compare("cause, list", call_cause(), size);
    lend(0, 3 * BLOCK - 1);
    compare("write, file", call_write(), size);
}

static void short_buffers_of_files(void) {
    static uint8_t file[MOST_BYTES];
    const uint64_t size = refused(SIEVECREST_REFUSED_SIZE, 0);
    begin("a buffer one too short for a file", 0);
    size_t length = encode(file);
    file[6] ^= 1; // a wrong sum, which comes after SIZE
    lend_file(file, length);
    len.words--;
    compare("read, words", call_read(), size);
    lend_file(file, length);
    len.rules--;
    compare("read, rules", call_read(), size);
    lend_file(file, length);
    len.out--;
    compare("advise, out", call_advise(), size);
    lend_file(file, length);
    len.work--;
    compare("advise, work", call_advise(), size);
}

// The file of 22 words and 64 rules, five blocks, made faulty at one byte of one block; its sum is mended or not.
static void faulty_block(const char *name, size_t block, size_t at, uint8_t byte, int mended, uint64_t number) {
    static uint8_t file[MOST_BYTES];
    begin(name, 5);
    for (int i = 0; i < 22; i++) word(1, 0, 0);
    for (int i = 0; i < 64; i++) rule(SIEVECREST_KIND_COPY, 0, 0, 0, 0, 0);
    size_t length = encode(file);
    file[block * BLOCK + at] = byte;
    if (mended) seal(file + block * BLOCK);
    file[length - 1] ^= 1; // a later fault of the last block
    lend_file(file, length);
    compare("read", call_read(), refused(number, block));
}

static void faulty_length(size_t length) {
    static uint8_t file[MOST_BYTES];
    begin("length of a file", 5);
    encode(file);
    lend_file(file, length);
    compare("read", call_read(), refused(SIEVECREST_REFUSED_SIZE, 0));
    lend_file(file, length);
    clear_work();
    memcpy(after.out, "refused 1 0\n", 12);
    compare("advise", call_advise(), packed(SIEVECREST_OK, 12, 0));
}

// Two end blocks: the second one is at fault, also as block number 1.
static void blocks_after_the_end(void) {
    static uint8_t file[MOST_BYTES];
    begin("two end blocks", 5);
    size_t length = encode(file);
    memcpy(file + length, file, length);
    file[BLOCK + 2] = 1;
    seal(file + BLOCK);
    lend_file(file, 2 * length);
    compare("read", call_read(), refused(SIEVECREST_REFUSED_LAYOUT, 1));
}

// A file that stops before its end block is at fault at its last block.
static void no_end(void) {
    static uint8_t file[MOST_BYTES];
    sound("no end block");
    rule(SIEVECREST_KIND_NE, 0, 1, 4, 0, 0);
    lend_file(file, encode(file) - BLOCK);
    compare("read", call_read(), refused(SIEVECREST_REFUSED_LAYOUT, 1));
}

static void faulty_files(void) {
    static const size_t bad[] = {0, 1, 511, 513, 7 * BLOCK + 1, 8 * BLOCK};
    for (size_t i = 0; i < sizeof bad / sizeof bad[0]; i++) faulty_length(bad[i]);
    for (size_t block = 0; block < 4; block++) {
        faulty_block("a block's sum", block, 8, 77, 0, SIEVECREST_REFUSED_CHECK);
        faulty_block("a block's kind", block, 0, 4, 1, SIEVECREST_REFUSED_LAYOUT);
        faulty_block("the edition", block, 1, 2, 1, SIEVECREST_REFUSED_LAYOUT);
        faulty_block("a block's number", block, 2, 9, 1, SIEVECREST_REFUSED_LAYOUT);
        faulty_block("a count over a full block's", block, 4, 64, 1, SIEVECREST_REFUSED_LAYOUT);
        faulty_block("a count of 0", block, 4, 0, 1, SIEVECREST_REFUSED_LAYOUT);
        faulty_block("a zero of a record", block, 15, 1, 1, SIEVECREST_REFUSED_LAYOUT);
    }
    faulty_block("an unused byte", 1, 511, 1, 1, SIEVECREST_REFUSED_LAYOUT);
    blocks_after_the_end();
    no_end();
}

static void all_refusals(void) {
    sizes();
    faulty_words();
    faulty_rules();
    questions();
    short_buffers();
    short_buffers_of_files();
    faulty_files();
}

#endif
