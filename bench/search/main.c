// The published search, measured on boards that make many guesses: the proved call and the plain search of plain.c, in one run, with the ratio.
// Built without PROVED it measures the plain search alone. Where both are there, answer, count and settings must agree.
#include "boards.h"
#include "plain.h"
#include "proved.h"
#include <stdio.h>
#include <string.h>
#include <time.h>

enum { TRIES = 5 };

typedef solved (*call)(const uint64_t *, size_t, const uint8_t *, size_t, uint32_t, uint64_t *);

#ifdef PROVED
static const call other = proved_solve;
#else
static const call other = plain_solve;
#endif

// Time that this process has had, so that what else runs on the machine counts less.
static double now(void) {
    struct timespec t;
    clock_gettime(CLOCK_PROCESS_CPUTIME_ID, &t);
    return (double)t.tv_sec * 1e9 + (double)t.tv_nsec;
}

// Guesses a second in one try, which is at least a twentieth of a second long; best keeps the greatest.
static void try_once(call solve, const board *p, uint32_t limit, solved *got, uint64_t *model, double *best) {
    double begin = now(), end, guesses = 0;
    do {
        *got = solve(p->words, p->nwords, p->rules, p->nrules, limit, model);
        guesses += got->count;
        end = now();
    } while (end - begin < 5e7);
    if (guesses * 1e9 / (end - begin) > *best) *best = guesses * 1e9 / (end - begin);
}

int main(void) {
    static const char *const names[] = {"found", "none", "gave up", "refused"};
    int bad = 0;
#ifdef PROVED
    printf("%-10s %-8s %8s %14s %14s %7s\n", "board", "answer", "guesses", "proved, a s", "plain C, a s", "ratio");
#else
    printf("the proved call is not linked: the plain search alone\n%-10s %-8s %8s %14s\n", "board", "answer", "guesses", "plain C, a s");
#endif
    for (unsigned i = 0; i < sizeof BOARDS / sizeof *BOARDS; i++) {
        static board p;
        uint64_t model[2][32] = {{0}, {0}};
        solved got[2];
        p.nwords = p.nrules = 0;
        BOARDS[i].make(&p);
        double r = 0, c = 0;
        // the two take turns, so that both see the machine in the same state
        for (unsigned t = 0; t < TRIES; t++) {
            try_once(other, &p, BOARDS[i].limit, &got[0], model[0], &r);
            try_once(plain_solve, &p, BOARDS[i].limit, &got[1], model[1], &c);
        }
#ifdef PROVED
        printf("%-10s %-8s %8u %14.0f %14.0f %7.2f\n", BOARDS[i].name, names[got[0].answer & 3], got[0].count, r, c, c / r);
#else
        printf("%-10s %-8s %8u %14.0f\n", BOARDS[i].name, names[got[1].answer & 3], got[1].count, c);
#endif
        if (got[0].answer != got[1].answer || got[0].count != got[1].count || memcmp(model[0], model[1], sizeof model[0]) != 0) {
            printf("%s: the two do not agree: plain C says %s with %u guesses\n", BOARDS[i].name, names[got[1].answer & 3], got[1].count);
            bad = 1;
        }
    }
    return bad;
}
