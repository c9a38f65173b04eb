// The boards worked by hand and some more, put through every call that answers them.
#ifndef BOARDS_H
#define BOARDS_H
#include "lent.h"

// The answers of single calls. Each is asked for with room that exactly does and with more.

static void check(uint64_t wanted) {
    lend(0, 0);
    compare("check", call_check(), wanted);
}

// bounds: lo and hi of each word after TIGHT, else a null pointer
static void tighten(uint64_t wanted, const uint64_t *bounds) {
    for (size_t more = 0; more <= 80; more += 80) {
        lend(SIEVECREST_TIGHTEN_WORK + more, 0);
        clear_work();
        for (size_t i = 0; bounds && i < board.words_len / 3; i++) memcpy(after.words + 3 * i + 1, bounds + 2 * i, 2 * sizeof *bounds);
        compare("tighten", call_tighten(), wanted);
    }
}

// model: the settings after FOUND, else a null pointer
static void solve(uint64_t wanted, const uint64_t *model) {
    for (size_t more = 0; more <= 8; more += 8) {
        lend(SIEVECREST_SOLVE_WORK + more, 0);
        len.model += more;
        clear_work();
        if (model) memcpy(after.model, model, board.words_len / 3 * sizeof *model);
        compare("solve", call_solve(), wanted);
    }
}

static void explain(uint64_t rule, uint64_t place, uint64_t bit, uint64_t wanted, const uint16_t *reason) {
    for (size_t more = 0; more <= 8; more += 8) {
        lend(0, 0);
        len.list = SIEVECREST_REASON_ENTRIES + more;
        if (reason) memcpy(after.list, reason, sievecrest_entries(wanted) * sizeof *reason);
        compare("explain", call_explain(rule, place, bit), wanted);
    }
}

static void cause(uint64_t wanted, const uint16_t *list) {
    for (size_t more = 0; more <= 8; more += 8) {
        lend(SIEVECREST_CAUSE_WORK + more, 0);
        len.list += more;
        clear_work();
        if (list) memcpy(after.list, list, sievecrest_entries(wanted) * sizeof *list);
        compare("cause", call_cause(), wanted);
    }
}

// The board's file written, read back and advised on.
static void files(const char *lines) {
    static uint8_t file[MOST_BYTES];
    size_t length = encode(file);
    for (size_t more = 0; more <= 8; more += 8) {
        lend(0, length + more);
        memcpy(after.file, file, length);
        compare("write", call_write(), packed(SIEVECREST_OK, length, 0));
        lend_file(file, length);
        len.words += more;
        len.rules += more;
        memcpy(after.words, board.words, board.words_len * sizeof *board.words);
        memcpy(after.rules, board.rules, board.rules_len);
        compare("read", call_read(), packed(SIEVECREST_OK, board.limit, board.words_len / 3 + 256 * (board.rules_len / 6)));
        lend_file(file, length);
        len.out += more;
        len.work += more;
        clear_work();
        memcpy(after.out, lines, strlen(lines));
        compare("advise", call_advise(), packed(SIEVECREST_OK, strlen(lines), 0));
    }
}

// The boards worked by hand.

static const uint64_t ONES = UINT64_MAX;

static void board_a(void) {
    static const uint8_t head[8] = {3, 1, 0, 0, 0, 0, 252, 254};
    static uint8_t file[MOST_BYTES];
    begin("A", 0);
    check(SIEVECREST_OK);
    tighten(SIEVECREST_TIGHT, NULL);
    solve(packed(SIEVECREST_FOUND, 0, 0), NULL);
    cause(packed(SIEVECREST_EXISTS, 0, 0), NULL);
    files("sat 0\n");
    expect(encode(file) == BLOCK && memcmp(file, head, 8) == 0, "file", "other bytes than the paper's");
}

static void board_b(void) {
    begin("B, limit 0", 0);
    word(1, 0, 1);
    solve(packed(SIEVECREST_GAVE_UP, 0, 0), NULL);
    cause(packed(SIEVECREST_GAVE_UP, 0, 0), NULL);
    files("unknown 0\n");
    begin("B, limit 1", 1);
    word(1, 0, 1);
    solve(packed(SIEVECREST_FOUND, 1, 0), (uint64_t[]){0});
    cause(packed(SIEVECREST_EXISTS, 1, 0), NULL);
    files("sat 1\n0 1 0\n");
}

static void board_c(void) {
    begin("C", 0);
    word(4, 0, 15), word(4, 15, 15), word(4, 1, 1);
    rule(SIEVECREST_KIND_ADD, 0, 1, 2, 0, 0);
    tighten(SIEVECREST_TIGHT, (uint64_t[]){0, 0, 15, 15, 1, 1});
    solve(packed(SIEVECREST_FOUND, 0, 0), (uint64_t[]){0, 15, 1});
    files("sat 0\n0 4 0000\n1 4 1111\n2 4 0001\n");
    begin("C, width 64", 0);
    word(64, 0, ONES), word(64, ONES, ONES), word(64, 1, 1);
    rule(SIEVECREST_KIND_ADD, 0, 1, 2, 0, 0);
    tighten(SIEVECREST_TIGHT, (uint64_t[]){0, 0, ONES, ONES, 1, 1});
    solve(packed(SIEVECREST_FOUND, 0, 0), (uint64_t[]){0, ONES, 1});
}

static void board_d(void) {
    begin("D", 1);
    word(1, 0, 1);
    rule(SIEVECREST_KIND_NE, 0, 0, 0, 0, 0);
    tighten(SIEVECREST_TIGHT, (uint64_t[]){0, 1});
    solve(packed(SIEVECREST_NONE, 1, 0), NULL);
    cause(packed(SIEVECREST_CAUSE, 2, 1), (uint16_t[]){0});
    files("unsat 1\ncause 2 0\n");
    board.name = "D, limit 0";
    board.limit = 0;
    solve(packed(SIEVECREST_GAVE_UP, 0, 0), NULL);
    cause(packed(SIEVECREST_GAVE_UP, 0, 0), NULL);
    files("unknown 0\n");
}

static void board_e(void) {
    begin("E", SIEVECREST_MAX_LIMIT);
    word(2, 0, 3), word(2, 0, 0);
    rule(SIEVECREST_KIND_NE, 0, 0, 1, 0, 0);
    solve(packed(SIEVECREST_FOUND, 1, 0), (uint64_t[]){1, 0});
    files("sat 1\n0 2 01\n1 2 00\n");
}

static void boards_f_g(void) {
    begin("F", 15);
    word(2, 0, 3), word(2, 0, 3), word(2, 3, 3);
    rule(SIEVECREST_KIND_ADD, 2, 0, 1, 0, 0);
    solve(packed(SIEVECREST_FOUND, 2, 0), (uint64_t[]){0, 3, 3});
    cause(packed(SIEVECREST_EXISTS, 2, 0), NULL);
    files("sat 2\n0 2 00\n1 2 11\n2 2 11\n");
    rule(SIEVECREST_KIND_ULE, 0, 1, 0, 0, 0);
    board.name = "G";
    board.limit = 100;
    check(SIEVECREST_OK);
    solve(packed(SIEVECREST_FOUND, 2, 0), (uint64_t[]){2, 1, 3});
    files("sat 2\n0 2 10\n1 2 01\n2 2 11\n");
}

static void board_h(void) {
    begin("H", SIEVECREST_MAX_LIMIT);
    word(1, 0, 1), word(1, 0, 1);
    rule(SIEVECREST_KIND_ULT, 0, 0, 1, 0, 0);
    rule(SIEVECREST_KIND_ULT, 0, 0, 1, 0, 0);
    rule(SIEVECREST_KIND_NE, 0, 0, 1, 0, 0);
    rule(SIEVECREST_KIND_ULT, 0, 1, 0, 0, 0);
    tighten(SIEVECREST_CONFLICT, NULL);
    solve(packed(SIEVECREST_NONE, 0, 0), NULL);
    cause(packed(SIEVECREST_CAUSE, 0, 2), (uint16_t[]){0, 3});
    files("unsat 0\ncause 0 0 3\n");
}

static void boards_i_j_k(void) {
    begin("I", 0);
    word(4, 8, 15), word(4, 0, 15);
    rule(SIEVECREST_KIND_ULE, 0, 0, 1, 0, 0);
    explain(0, SIEVECREST_PLACE_B, 3, packed(SIEVECREST_FORCED, 1, 1), (uint16_t[]){67});
    explain(0, SIEVECREST_PLACE_B, 2, SIEVECREST_FREE, NULL);
    tighten(SIEVECREST_TIGHT, (uint64_t[]){8, 15, 8, 15});
    begin("J", 0);
    word(3, 5, 5), word(3, 5, 7);
    rule(SIEVECREST_KIND_NE, 0, 0, 1, 0, 0);
    explain(0, SIEVECREST_PLACE_B, 1, packed(SIEVECREST_FORCED, 1, 5), (uint16_t[]){64, 65, 66, 128, 130});
    begin("K", 0);
    word(1, 0, 0), word(1, 0, 1), word(1, 1, 1);
    rule(SIEVECREST_KIND_AND, 0, 1, 2, 0, 0);
    explain(0, SIEVECREST_PLACE_A, 0, packed(SIEVECREST_FORCED, 0, 2), (uint16_t[]){0, 128});
}

// What the paper's boards do not show: a reason for a conflict, a trial that gives up, a count of more than 8 bits, and the most words and rules.

static void conflict_explained(void) {
    begin("nothing above 3", 0);
    word(2, 3, 3), word(2, 0, 3);
    rule(SIEVECREST_KIND_ULT, 0, 0, 1, 0, 0);
    explain(0, SIEVECREST_PLACE_B, 0, packed(SIEVECREST_CONFLICT, 0, 2), (uint16_t[]){64, 65});
}

static void trial_gives_up(void) {
    begin("a trial gives up", 1);
    word(1, 0, 1), word(1, 0, 1), word(2, 0, 3);
    rule(SIEVECREST_KIND_ULT, 0, 0, 1, 0, 0);
    rule(SIEVECREST_KIND_ULT, 0, 1, 0, 0, 0);
    cause(packed(SIEVECREST_GAVE_UP, 1, 0), NULL);
    files("unsat 0\ncause unknown 1\n");
}

static void all_bits_open(void) {
    static const uint64_t zeros[32];
    begin("2048 open bits", 2048);
    for (int i = 0; i < 32; i++) word(64, 0, ONES);
    solve(packed(SIEVECREST_FOUND, 2048, 0), zeros);
    board.limit = 2047;
    solve(packed(SIEVECREST_GAVE_UP, 2047, 0), NULL);
}

// 32 words of one bit, all 1, and 252 rules of one kind between them.
static void full_board(const char *name, unsigned kind) {
    begin(name, SIEVECREST_MAX_LIMIT);
    for (int i = 0; i < 32; i++) word(1, 1, 1);
    for (unsigned i = 0; i < 252; i++) rule(kind, i % 32, i / 8, kind == SIEVECREST_KIND_AND ? i % 7 : 0, 0, 0);
}

static void most_words_and_rules(void) {
    static char lines[SIEVECREST_LINES_BYTES] = "sat 0\n";
    for (int i = 0; i < 32; i++) sprintf(lines + strlen(lines), "%d 1 1\n", i);
    full_board("32 words, 252 rules that hold", SIEVECREST_KIND_AND);
    files(lines);
    lend(0, SIEVECREST_MAX_FILE_BYTES);
    expect(call_write() == packed(SIEVECREST_OK, SIEVECREST_MAX_FILE_BYTES, 0), "write", "another length than the longest file's");
    full_board("32 words, 252 rules of which none holds", SIEVECREST_KIND_NOT);
    cause(packed(SIEVECREST_CAUSE, 0, 1), (uint16_t[]){0});
    files("unsat 0\ncause 0 0\n");
}

// Part of board L: one rule of every kind, the k of SLICE the last that fits, those of the shifts the width and the greatest.
static void every_kind(void) {
    begin("every kind", 0);
    word(1, 0, 1), word(4, 0, 15), word(8, 0, 255), word(12, 0, 4095), word(4, 0, 15);
    rule(SIEVECREST_KIND_COPY, 1, 4, 0, 0, 0), rule(SIEVECREST_KIND_NOT, 1, 4, 0, 0, 0), rule(SIEVECREST_KIND_AND, 1, 4, 1, 0, 0);
    rule(SIEVECREST_KIND_OR, 1, 4, 1, 0, 0), rule(SIEVECREST_KIND_XOR, 1, 4, 1, 0, 0), rule(SIEVECREST_KIND_ADD, 1, 4, 1, 0, 0);
    rule(SIEVECREST_KIND_ITE, 1, 4, 1, 0, 0), rule(SIEVECREST_KIND_SLICE, 1, 2, 0, 0, 4), rule(SIEVECREST_KIND_JOIN, 3, 1, 2, 0, 0);
    rule(SIEVECREST_KIND_SHL, 1, 4, 0, 0, 4), rule(SIEVECREST_KIND_SHR, 1, 4, 0, 0, 255), rule(SIEVECREST_KIND_ULE, 0, 1, 4, 0, 0);
    rule(SIEVECREST_KIND_ULT, 0, 1, 4, 0, 0), rule(SIEVECREST_KIND_NE, 0, 1, 4, 0, 0);
    check(SIEVECREST_OK);
}

static void all_boards(void) {
    board_a();
    board_b();
    board_c();
    board_d();
    board_e();
    boards_f_g();
    board_h();
    boards_i_j_k();
    conflict_explained();
    trial_gives_up();
    all_bits_open();
    most_words_and_rules();
    every_kind();
}

#endif
