// Asks the library: each line of standard input is a call and its numbers, and the line printed for it is the returned number and what the call stored.
// A line: the call's name; how many words there are, and width, lo, hi of each; how many rules, and the six fields of each; then what the call takes beside:
// the limit, or rule, place and bit for explain. `read` reads the problem's own file back.
#include "sievecrest.h"
#include <inttypes.h>
#include <stdio.h>
#include <stdlib.h>
#include <string.h>

static uint64_t words[SIEVECREST_READ_NUMBERS], model[SIEVECREST_MAX_WORDS], work[SIEVECREST_CAUSE_WORK];
static uint8_t rules[SIEVECREST_READ_BYTES], file[SIEVECREST_MAX_FILE_BYTES];
static uint16_t list[SIEVECREST_MAX_RULES];
static size_t words_len, rules_len;

static uint64_t number(void) {
    uint64_t x;
    if (scanf("%" SCNu64, &x) != 1) {
        fprintf(stderr, "ask: a line is cut short\n");
        exit(1);
    }
    return x;
}

static size_t room(uint64_t records, uint64_t most) {
    if (records > most) {
        fprintf(stderr, "ask: more records than there is room for\n");
        exit(1);
    }
    return (size_t)records;
}

static void read_problem(void) {
    words_len = 3 * room(number(), SIEVECREST_MAX_WORDS);
    for (size_t i = 0; i < words_len; i++) words[i] = number();
    rules_len = 6 * room(number(), SIEVECREST_MAX_RULES);
    for (size_t i = 0; i < rules_len; i++) rules[i] = (uint8_t)number();
}

static void print_list(uint64_t x) {
    printf("%" PRIu64, x);
    for (uint32_t i = 0; i < sievecrest_entries(x); i++) printf(" %" PRIu16, list[i]);
}

static void tighten(void) {
    printf("%" PRIu64, sievecrest_tighten(words, words_len, rules, rules_len, work, SIEVECREST_TIGHTEN_WORK));
    for (size_t i = 0; i < words_len; i++) printf(" %" PRIu64, words[i]);
}

static void explain(void) {
    uint64_t rule = number(), place = number(), bit = number();
    print_list(sievecrest_explain(words, words_len, rules, rules_len, rule, place, bit, list, SIEVECREST_REASON_ENTRIES));
}

static void limited(const char *call, uint32_t limit) {
    if (strcmp(call, "check") == 0)
        printf("%" PRIu64, sievecrest_check(words, words_len, rules, rules_len, limit));
    else if (strcmp(call, "cause") == 0)
        print_list(sievecrest_cause(words, words_len, rules, rules_len, limit, list, SIEVECREST_MAX_RULES, work, SIEVECREST_CAUSE_WORK));
    else if (strcmp(call, "solve") == 0)
        printf("%" PRIu64, sievecrest_solve(words, words_len, rules, rules_len, limit, model, SIEVECREST_MAX_WORDS, work, SIEVECREST_SOLVE_WORK));
    else {
        uint64_t x = sievecrest_write(words, words_len, rules, rules_len, limit, file, SIEVECREST_MAX_FILE_BYTES);
        printf("%" PRIu64, sievecrest_read(file, sievecrest_length(x), words, SIEVECREST_READ_NUMBERS, rules, SIEVECREST_READ_BYTES));
    }
}

int main(void) {
    char call[10];
    while (scanf("%9s", call) == 1) {
        read_problem();
        if (strcmp(call, "tighten") == 0)
            tighten();
        else if (strcmp(call, "explain") == 0)
            explain();
        else
            limited(call, (uint32_t)number());
        printf("\n");
        fflush(stdout);
    }
    return 0;
}
