// The plain search as a program: one block file on standard input, the lines of the adviser program on standard output.
// It checks nothing, so the file has to be a proper one that is not refused.
#include "plain.h"
#include <stdio.h>
#include <string.h>

enum { BLOCK = 512, HEAD = 8 };

static uint64_t words[3 * 32], model[32];
static uint8_t rules[6 * 252], trial[6 * 252];
static unsigned nwords, nrules;
static uint32_t limit;

static void read_block(const uint8_t *block) {
    for (unsigned i = 0; i < block[4]; i++) {
        if (block[0] == 1) {
            const uint8_t *x = block + HEAD + 24 * i;
            words[3 * nwords] = x[0];
            memcpy(&words[3 * nwords + 1], x + 8, 16);
            nwords++;
        } else {
            memcpy(rules + 6 * nrules, block + HEAD + 8 * i, 6);
            nrules++;
        }
    }
    if (block[0] == 3) memcpy(&limit, block + HEAD, 4);
}

static void print_settings(void) {
    for (unsigned i = 0; i < nwords; i++) {
        printf("%u %u ", i, (unsigned)words[3 * i]);
        for (unsigned j = (unsigned)words[3 * i]; j-- > 0;) putchar(model[i] >> j & 1 ? '1' : '0');
        putchar('\n');
    }
}

// From the last rule to the first: a rule is dropped if the rest still has no settings.
static void print_cause(uint32_t first) {
    unsigned char kept[252];
    unsigned long sum = first;
    memset(kept, 1, sizeof kept);
    for (unsigned dropped = nrules; dropped-- > 0;) {
        unsigned n = 0;
        kept[dropped] = 0;
        for (unsigned i = 0; i < nrules; i++)
            if (kept[i]) memcpy(trial + 6 * n++, rules + 6 * i, 6);
        solved got = plain_solve(words, nwords, trial, n, limit, model);
        sum += got.count;
        if (got.answer == GAVE_UP) {
            printf("cause unknown %lu\n", sum);
            return;
        }
        kept[dropped] = got.answer == FOUND;
    }
    printf("cause %lu", sum);
    for (unsigned i = 0; i < nrules; i++)
        if (kept[i]) printf(" %u", i);
    putchar('\n');
}

int main(void) {
    static uint8_t file[7 * BLOCK];
    size_t blocks = fread(file, 1, sizeof file, stdin) / BLOCK;
    for (size_t i = 0; i < blocks; i++) {
        if (nwords + (file[i * BLOCK] == 1 ? file[i * BLOCK + 4] : 0) > 32 || nrules + (file[i * BLOCK] == 2 ? file[i * BLOCK + 4] : 0) > 252) {
            fprintf(stderr, "advise: block %zu holds too many records; give a proper block file\n", i);
            return 2;
        }
        read_block(file + i * BLOCK);
    }
    solved got = plain_solve(words, nwords, rules, nrules, limit, model);
    printf("%s %u\n", got.answer == FOUND ? "sat" : got.answer == NONE ? "unsat" : "unknown", got.count);
    if (got.answer == FOUND) print_settings();
    if (got.answer == NONE) print_cause(got.count);
    return 0;
}
