// A clock generator with a crystal of 10 MHz: which multiplier gives an output within two bounds, and where none does, which rules conflict?
// There is no rule for products: ten times the multiplier is eight times and twice, by shifts and a sum.
#include "sievecrest.h"
#include <inttypes.h>
#include <stdio.h>

enum { MULTIPLIER, EIGHT_TIMES, TWICE, OUTPUT, LEAST, MOST, NOISY, WORDS };

// kind, r, a, b, s, k
static const uint8_t rules[] = {
    SIEVECREST_KIND_SHL, EIGHT_TIMES, MULTIPLIER, 0, 0, 3, // rule 0
    SIEVECREST_KIND_SHL, TWICE, MULTIPLIER, 0, 0, 1,       // rule 1
    SIEVECREST_KIND_ADD, OUTPUT, EIGHT_TIMES, TWICE, 0, 0, // rule 2
    SIEVECREST_KIND_NE, 0, MULTIPLIER, NOISY, 0, 0,        // rule 3
    SIEVECREST_KIND_ULE, 0, LEAST, OUTPUT, 0, 0,           // rule 4
    SIEVECREST_KIND_ULE, 0, OUTPUT, MOST, 0, 0,            // rule 5
};

static uint64_t work[SIEVECREST_CAUSE_WORK]; // enough for solve too

static void print_cause(const uint64_t *words) {
    uint16_t list[SIEVECREST_MAX_RULES];
    uint64_t x = sievecrest_cause(words, 3 * WORDS, rules, sizeof rules, 1000, list, SIEVECREST_MAX_RULES, work, SIEVECREST_CAUSE_WORK);
    if (sievecrest_number(x) != SIEVECREST_CAUSE) {
        printf("no cause within the limit\n");
        return;
    }
    printf("conflicting rules");
    for (uint32_t i = 0; i < sievecrest_entries(x); i++) printf(" %" PRIu16, list[i]);
    printf("\n");
}

static void advise(uint64_t least, uint64_t most) {
    // width, lo, hi: all words have 10 bits, and of the multiplier the lowest 6 are open
    const uint64_t words[3 * WORDS] = {10, 0, 63, 10, 0, 1023, 10, 0, 1023, 10, 0, 1023, 10, least, least, 10, most, most, 10, 40, 40};
    uint64_t model[WORDS];
    uint64_t x = sievecrest_solve(words, 3 * WORDS, rules, sizeof rules, 1000, model, WORDS, work, SIEVECREST_CAUSE_WORK);
    printf("%" PRIu64 " to %" PRIu64 " MHz: ", least, most);
    if (sievecrest_number(x) == SIEVECREST_FOUND)
        printf("multiplier %" PRIu64 ", output %" PRIu64 " MHz, %" PRIu32 " guesses\n", model[MULTIPLIER], model[OUTPUT], sievecrest_count(x));
    else if (sievecrest_number(x) == SIEVECREST_NONE)
        print_cause(words);
    else if (sievecrest_number(x) == SIEVECREST_GAVE_UP)
        printf("not decided within %" PRIu32 " guesses\n", sievecrest_count(x));
    else
        printf("refused at %" PRIu32 ": %s\n", sievecrest_place(x), sievecrest_refusal_text(sievecrest_number(x)));
}

int main(void) {
    advise(400, 440);
    advise(401, 409);
    advise(400, 1024); // 1024 has more than 10 bits
    return 0;
}
