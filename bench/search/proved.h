// The proved call `sievecrest_solve`, with the arguments and the result of the plain one. It is there where the library is linked: built with PROVED.
#ifndef PROVED_H
#define PROVED_H
#ifdef PROVED
#include "../../include/sievecrest.h"
#include "plain.h"
#include <stdio.h>

enum { WORK = SIEVECREST_SOLVE_WORK };

static uint64_t work[WORK];

static solved proved_solve(const uint64_t *words, size_t nwords, const uint8_t *rules, size_t nrules, uint32_t limit, uint64_t *model) {
    uint64_t x = sievecrest_solve(words, 3 * nwords, rules, 6 * nrules, limit, model, nwords, work, WORK);
    return (solved){sievecrest_is_refusal(x) ? 3 : sievecrest_number(x) - SIEVECREST_FOUND, sievecrest_count(x)};
}

// Whether the call left its work memory all zero.
static inline int work_is_zero(void) {
    for (unsigned i = 0; i < WORK; i++)
        if (work[i]) {
            printf("the proved call left %llu at number %u of its work memory\n", (unsigned long long)work[i], i);
            return 0;
        }
    return 1;
}

#endif
#endif
