// Every answer of every call and every refusal, taken apart by every function of the header. Each part has the greatest value that the paper allows, so that
// one that is cut, or taken for another, shows; a part that an answer does not have is 0.
#ifndef ANSWERS_H
#define ANSWERS_H
#include "lent.h"

enum { SUM = 253000000 }; // of 253 searches at the greatest limit

typedef struct {
    const char *name;
    uint64_t returned;
    uint32_t number, place, count, value, entries, length, limit, words, rules;
} answer;

#define RETURNED(number, detail, entries) ((number) + ((uint64_t)(detail) << 8) + ((uint64_t)(entries) << 40))

// Of OK the detail is the limit that read read, or the length that write and advise put: the number does not say which, so both functions give it.
static const answer ANSWERS[] = {
    {"FOUND", RETURNED(32, 1000000, 0), .number = 32, .count = 1000000},
    {"NONE", RETURNED(33, 1000000, 0), .number = 33, .count = 1000000},
    {"GAVE_UP of solve", RETURNED(34, 1000000, 0), .number = 34, .count = 1000000},
    {"GAVE_UP of cause", RETURNED(34, SUM, 0), .number = 34, .count = SUM},
    {"OK of check", RETURNED(35, 0, 0), .number = 35},
    {"OK of write", RETURNED(35, 3584, 0), .number = 35, .length = 3584, .limit = 3584},
    {"OK of advise", RETURNED(35, 2304, 0), .number = 35, .length = 2304, .limit = 2304},
    {"OK of read", RETURNED(35, 1000000, 32 + 256 * 252), .number = 35, .length = 1000000, .limit = 1000000, .words = 32, .rules = 252},
    {"TIGHT", RETURNED(36, 0, 0), .number = 36},
    {"CONFLICT of tighten", RETURNED(37, 0, 0), .number = 37},
    {"CONFLICT of explain", RETURNED(37, 0, 193), .number = 37, .entries = 193},
    {"FORCED 0", RETURNED(38, 0, 193), .number = 38, .entries = 193},
    {"FORCED 1", RETURNED(38, 1, 193), .number = 38, .value = 1, .entries = 193},
    {"FREE", RETURNED(39, 0, 0), .number = 39},
    {"EXISTS", RETURNED(40, 1000000, 0), .number = 40, .count = 1000000},
    {"CAUSE", RETURNED(41, SUM, 252), .number = 41, .count = SUM, .entries = 252},
    {"refused, SIZE", RETURNED(1, 0, 0), .number = 1},
    {"refused, CHECK", RETURNED(2, 6, 0), .number = 2, .place = 6},
    {"refused, LAYOUT", RETURNED(3, 6, 0), .number = 3, .place = 6},
    {"refused, WIDTH", RETURNED(4, 31, 0), .number = 4, .place = 31},
    {"refused, TABLE", RETURNED(5, 31, 0), .number = 5, .place = 31},
    {"refused, KIND", RETURNED(6, 251, 0), .number = 6, .place = 251},
    {"refused, FIELD", RETURNED(7, 251, 0), .number = 7, .place = 251},
    {"refused, FIT", RETURNED(8, 251, 0), .number = 8, .place = 251},
    {"refused, LIMIT", RETURNED(9, 0, 0), .number = 9},
    {"refused, ASK", RETURNED(10, 0, 0), .number = 10},
    {"refused, EMPTY", RETURNED(11, 0, 0), .number = 11},
};

static void taken_apart(const answer *x) {
    begin(x->name, 0);
    expect(sievecrest_number(x->returned) == x->number, "sievecrest_number", "another number");
    expect(sievecrest_is_refusal(x->returned) == (x->number <= SIEVECREST_REFUSED_EMPTY), "sievecrest_is_refusal", "a refusal or not");
    expect(sievecrest_detail(x->returned) == (x->returned >> 8 & UINT32_MAX), "sievecrest_detail", "another detail");
    expect(sievecrest_place(x->returned) == x->place, "sievecrest_place", "another place");
    expect(sievecrest_count(x->returned) == x->count, "sievecrest_count", "another count");
    expect(sievecrest_value(x->returned) == x->value, "sievecrest_value", "another value");
    expect(sievecrest_entries(x->returned) == x->entries, "sievecrest_entries", "other entries");
    expect(sievecrest_length(x->returned) == x->length, "sievecrest_length", "another length");
    expect(sievecrest_limit(x->returned) == x->limit, "sievecrest_limit", "another limit");
    expect(sievecrest_words(x->returned) == x->words, "sievecrest_words", "other words");
    expect(sievecrest_rules(x->returned) == x->rules, "sievecrest_rules", "other rules");
}

// Each refusal has a text of its own, and any other number the text of none.
static void texts(void) {
    int none = 1;
    begin("texts of refusals", 0);
    for (uint32_t i = SIEVECREST_REFUSED_SIZE; i <= SIEVECREST_REFUSED_EMPTY; i++) {
        int own = 1;
        for (uint32_t j = 0; j < i; j++) own = own && strcmp(sievecrest_refusal_text(i), sievecrest_refusal_text(j)) != 0;
        expect(own, "sievecrest_refusal_text", "a text that another number has");
    }
    for (uint32_t i = SIEVECREST_REFUSED_EMPTY + 1; i < 256; i++) none = none && strcmp(sievecrest_refusal_text(i), sievecrest_refusal_text(0)) == 0;
    expect(none, "sievecrest_refusal_text", "a number that is no refusal's has a text of its own");
}

static void all_answers(void) {
    for (size_t i = 0; i < sizeof ANSWERS / sizeof ANSWERS[0]; i++) taken_apart(&ANSWERS[i]);
    texts();
}

#endif
