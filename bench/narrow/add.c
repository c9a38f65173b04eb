// One ADD rule tightened, measured: `sievecrest_tighten` beside a plain loop over columns in C that tightens the same three words.
// Both leave the same bounds, or say that there are none; the sums over all cases must agree.
#include "sievecrest.h"
#include <stdio.h>
#include <string.h>
#include <time.h>

// width, lo, hi of r, a and b
enum { LENGTH = 9 };

typedef struct {
    uint64_t rl, rh, al, ah, bl, bh;
} lanes;

static const uint8_t ADD[] = {SIEVECREST_KIND_ADD, 0, 1, 2, 0, 0};

// columns 4 r + 2 a + b by which a carry 0 or 1 goes on to a carry 0 or 1
static const unsigned STEP[2][2] = {{97, 8}, {16, 134}};

// the columns that the bounds leave at bit i
static unsigned allowed(const lanes *w, unsigned i) {
    unsigned r = (w->rl >> i & 1 ? 0 : 15) | (w->rh >> i & 1 ? 240 : 0);
    unsigned a = (w->al >> i & 1 ? 0 : 51) | (w->ah >> i & 1 ? 204 : 0);
    unsigned b = (w->bl >> i & 1 ? 0 : 85) | (w->bh >> i & 1 ? 170 : 0);
    return r & a & b;
}

// Narrows the bounds; 0 where there is no fit, and then they stay.
static int narrow(unsigned n, lanes *w) {
    unsigned mask[64];
    unsigned char reach[65][2];
    reach[0][0] = 1;
    reach[0][1] = 0;
    for (unsigned i = 0; i < n; i++) {
        unsigned m = mask[i] = allowed(w, i);
        for (unsigned p = 0; p < 2; p++)
            reach[i + 1][p] = ((reach[i][0] ? STEP[0][p] & m : 0) | (reach[i][1] ? STEP[1][p] & m : 0)) != 0;
    }
    unsigned live0 = 1, live1 = 1;
    lanes u = {0, 0, 0, 0, 0, 0};
    for (unsigned i = n; i-- > 0;) {
        unsigned m = mask[i];
        unsigned s0 = (live0 ? STEP[0][0] & m : 0) | (live1 ? STEP[0][1] & m : 0);
        unsigned s1 = (live0 ? STEP[1][0] & m : 0) | (live1 ? STEP[1][1] & m : 0);
        unsigned s = (reach[i][0] ? s0 : 0) | (reach[i][1] ? s1 : 0);
        u.rl |= (uint64_t)((s & 15) == 0) << i;
        u.rh |= (uint64_t)((s & 240) != 0) << i;
        u.al |= (uint64_t)((s & 51) == 0) << i;
        u.ah |= (uint64_t)((s & 204) != 0) << i;
        u.bl |= (uint64_t)((s & 85) == 0) << i;
        u.bh |= (uint64_t)((s & 170) != 0) << i;
        live0 = s0 != 0;
        live1 = s1 != 0;
    }
    if (!live0) return 0;
    *w = u;
    return 1;
}

// The rule narrowed until nothing changes, as tightening does: once more than there is something to change.
static int plain_tighten(uint64_t *words) {
    lanes w = {words[1], words[2], words[4], words[5], words[7], words[8]}, before;
    do {
        before = w;
        if (!narrow((unsigned)words[0], &w)) return 0;
    } while (memcmp(&w, &before, sizeof w) != 0);
    words[1] = w.rl, words[2] = w.rh, words[4] = w.al, words[5] = w.ah, words[7] = w.bl, words[8] = w.bh;
    return 1;
}

static uint64_t work[SIEVECREST_TIGHTEN_WORK];

static int library_tighten(uint64_t *words) {
    return sievecrest_tighten(words, LENGTH, ADD, sizeof ADD, work, SIEVECREST_TIGHTEN_WORK) == SIEVECREST_TIGHT;
}

// What a call costs without any rule: the words checked and copied, work memory cleared.
static int library_idle(uint64_t *words) { return sievecrest_tighten(words, LENGTH, ADD, 0, work, SIEVECREST_TIGHTEN_WORK) == SIEVECREST_TIGHT; }

static uint64_t state = 88172645463325252u;

static uint64_t next(void) {
    state ^= state << 13;
    state ^= state >> 7;
    state ^= state << 17;
    return state;
}

static double now(void) {
    struct timespec t;
    clock_gettime(CLOCK_MONOTONIC, &t);
    return (double)t.tv_sec * 1e9 + (double)t.tv_nsec;
}

enum { CASES = 4096, ROUNDS = 32, TRIES = 5, WAYS = 3 };

static uint64_t cases[CASES][LENGTH];

// Bounds around a sum that holds, so that most cases have a fit; every sixteenth has bounds of its own and often none.
static void make(unsigned n) {
    uint64_t all = UINT64_MAX >> (64 - n);
    for (unsigned i = 0; i < CASES; i++) {
        uint64_t a = next() & all, b = next() & all, r = (i % 16 ? a + b : next()) & all;
        uint64_t oa = next(), ob = next(), or = next();
        const uint64_t words[LENGTH] = {n, r & ~or, (r | or) & all, n, a & ~oa, (a | oa) & all, n, b & ~ob, (b | ob) & all};
        memcpy(cases[i], words, sizeof words);
    }
}

// The time of all cases by one way, in nanoseconds a case, and the sum of all that it leaves.
static double measure(int (*tighten)(uint64_t *), uint64_t *sum, unsigned *conflicts) {
    uint64_t words[LENGTH];
    *sum = 0;
    *conflicts = 0;
    double begin = now();
    for (unsigned j = 0; j < ROUNDS; j++)
        for (unsigned i = 0; i < CASES; i++) {
            memcpy(words, cases[i], sizeof words);
            if (!tighten(words)) ++*conflicts;
            for (unsigned k = 0; k < LENGTH; k++) *sum = *sum * 31 + words[k];
        }
    return (now() - begin) / ((double)CASES * ROUNDS);
}

int main(void) {
    int (*const ways[WAYS])(uint64_t *) = {library_tighten, library_idle, plain_tighten};
    const unsigned widths[] = {8, 32, 64};
    int bad = 0;
    printf("one ADD rule tightened, nanoseconds: width, library, the same call without the rule, plain C loop, ratio of the rule alone\n");
    for (unsigned k = 0; k < 3; k++) {
        double best[WAYS] = {1e300, 1e300, 1e300};
        uint64_t sum[WAYS];
        unsigned conflicts[WAYS];
        make(widths[k]);
        for (unsigned t = 0; t < TRIES; t++)
            for (unsigned i = 0; i < WAYS; i++) {
                double time = measure(ways[i], &sum[i], &conflicts[i]);
                if (time < best[i]) best[i] = time;
            }
        printf("%2u %8.1f %8.1f %8.1f %6.2f\n", widths[k], best[0], best[1], best[2], (best[0] - best[1]) / best[2]);
        if (sum[0] != sum[2] || conflicts[0] != conflicts[2] || conflicts[0] == 0) {
            printf("width %u: the two do not agree, or no case is a conflict\n", widths[k]);
            bad = 1;
        }
    }
    return bad;
}
