// The published search as one call of plain C: the problem lies in memory as for the proved call, and has to be one that the checker passes.
#ifndef PLAIN_H
#define PLAIN_H
#include <stddef.h>
#include <stdint.h>

enum { FOUND, NONE, GAVE_UP };

typedef struct {
    uint32_t answer; // FOUND, NONE or GAVE_UP
    uint32_t count;  // guesses made
} solved;

// words: width, lo, hi of each word; rules: kind r a b s k of each rule; model gets a value for each word where the answer is FOUND
solved plain_solve(const uint64_t *words, size_t nwords, const uint8_t *rules, size_t nrules, uint32_t limit, uint64_t *model);

#endif
