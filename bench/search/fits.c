// The plain search compared with a slow one that goes through every fit of every rule: same answer, count and settings on random small problems.
// ./fits [PROBLEMS [SEED]]; the last line counts what passed and failed, and a problem that fails is printed. Built with PROVED, the proved call is
// compared too, with the memory that it leaves.
#include "plain.h"
#include "proved.h"
#include <stdio.h>
#include <stdlib.h>
#include <string.h>

enum { MOST_WORDS = 6, MOST_RULES = 7, KINDS = 14 };

typedef struct {
    uint64_t words[3 * MOST_WORDS];
    uint8_t rules[6 * MOST_RULES];
    unsigned nwords, nrules;
    uint32_t limit;
} problem;

typedef struct {
    uint64_t lo[MOST_WORDS], hi[MOST_WORDS];
} table;

// which of r a b s a kind uses
static const char *const PLACES[KINDS + 1] = {"", "ra", "ra", "rab", "rab", "rab", "rab", "rabs", "ra", "rab", "ra", "ra", "ab", "ab", "ab"};

static int uses(int kind, unsigned place) { return strchr(PLACES[kind], "rabs"[place]) != NULL; }

static uint64_t ones(uint64_t w) { return w == 64 ? UINT64_MAX : ((uint64_t)1 << w) - 1; }

// What a kind gives at r, whose width is w; wb is the width of b.
static uint64_t computed(int kind, uint64_t a, uint64_t b, uint64_t s, unsigned k, uint64_t w, uint64_t wb) {
    switch (kind) {
    case 1: return a;
    case 2: return a ^ ones(w);
    case 3: return a & b;
    case 4: return a | b;
    case 5: return a ^ b;
    case 6: return (a + b) & ones(w);
    case 7: return s == 1 ? a : b;
    case 8: return a >> k & ones(w);
    case 9: return (a << wb) | b;
    case 10: return k < w ? a << k & ones(w) : 0;
    default: return k < w ? a >> k : 0;
    }
}

static int fit_widths(int kind, const uint64_t *w, unsigned k) {
    if (kind == 7) return w[0] == w[1] && w[0] == w[2] && w[3] == 1;
    if (kind == 8) return k + w[0] <= w[1];
    if (kind == 9) return w[0] == w[1] + w[2];
    if (kind >= 12) return w[1] == w[2];
    return w[0] == w[1] && (kind < 3 || kind > 9 || w[0] == w[2]);
}

// The next value that keeps the fixed bits, after v; the one after the last is the first.
static uint64_t next_value(uint64_t v, uint64_t lo, uint64_t hi) { return lo | (((v | ~(lo ^ hi)) + 1) & (lo ^ hi)); }

// All fits of a rule gone through: the bounds of its places become the least that hold them. 0 if there is none, else 1.
static int hull(const problem *p, const uint8_t *f, const table *t, uint64_t lo[4], uint64_t hi[4]) {
    int kind = f[0], any = 0;
    uint64_t l[4], h[4], v[4] = {0, 0, 0, 0};
    for (unsigned i = 0; i < 4; i++) {
        l[i] = uses(kind, i) ? t->lo[f[1 + i]] : 0;
        h[i] = uses(kind, i) ? t->hi[f[1 + i]] : 0;
        lo[i] = UINT64_MAX;
        hi[i] = 0;
    }
    uint64_t w = p->words[3 * f[1]], wb = p->words[3 * f[3]];
    v[3] = l[3];
    do {
        v[2] = l[2];
        do {
            v[1] = l[1];
            do {
                int fit;
                if (kind < 12) {
                    v[0] = computed(kind, v[1], v[2], v[3], f[5], w, wb);
                    fit = (l[0] & ~v[0]) == 0 && (v[0] & ~h[0]) == 0;
                } else {
                    fit = kind == 12 ? v[1] <= v[2] : kind == 13 ? v[1] < v[2] : v[1] != v[2];
                }
                for (unsigned i = 0; fit && i < 4; i++) {
                    lo[i] &= v[i];
                    hi[i] |= v[i];
                }
                any |= fit;
            } while ((v[1] = next_value(v[1], l[1], h[1])) != l[1]);
        } while ((v[2] = next_value(v[2], l[2], h[2])) != l[2]);
    } while ((v[3] = next_value(v[3], l[3], h[3])) != l[3]);
    return any;
}

static int slow_tighten(const problem *p, table *t) {
    for (int changed = 1; changed;) {
        changed = 0;
        for (unsigned j = 0; j < p->nrules; j++) {
            const uint8_t *f = p->rules + 6 * j;
            uint64_t lo[4], hi[4];
            if (!hull(p, f, t, lo, hi)) return 0;
            for (unsigned i = 0; i < 4; i++) {
                if (!uses(f[0], i)) continue;
                unsigned n = f[1 + i];
                uint64_t l = t->lo[n] | lo[i], h = t->hi[n] & hi[i];
                if (l & ~h) return 0;
                changed |= l != t->lo[n] || h != t->hi[n];
                t->lo[n] = l;
                t->hi[n] = h;
            }
        }
    }
    return 1;
}

static uint32_t slow_search(const problem *p, table t, uint32_t *count, uint64_t *model) {
    if (!slow_tighten(p, &t)) return NONE;
    unsigned i = 0, j = 63;
    while (i < p->nwords && t.lo[i] == t.hi[i]) i++;
    if (i == p->nwords) {
        memcpy(model, t.lo, sizeof(uint64_t) * p->nwords);
        return FOUND;
    }
    if (*count == p->limit) return GAVE_UP;
    ++*count;
    while (!((t.lo[i] ^ t.hi[i]) >> j & 1)) j--;
    table u = t;
    u.hi[i] ^= (uint64_t)1 << j;
    uint32_t answer = slow_search(p, u, count, model);
    if (answer != NONE) return answer;
    t.lo[i] ^= (uint64_t)1 << j;
    return slow_search(p, t, count, model);
}

static uint64_t state;

static uint64_t random_number(void) {
    state ^= state << 13;
    state ^= state >> 7;
    state ^= state << 17;
    return state;
}

static unsigned below(unsigned n) { return (unsigned)((random_number() >> 33) % n); }

// A problem that the checker passes: words of few open bits, rules of every kind between words that fit.
static void make(problem *p) {
    static const uint64_t narrow[] = {1, 1, 2, 2, 3, 3, 4, 5}, wide[] = {1, 8, 16, 31, 32, 33, 63, 64, 64};
    int is_wide = below(5) == 0;
    p->nwords = 1 + below(MOST_WORDS);
    uint64_t usual = is_wide ? wide[below(9)] : narrow[below(8)];
    for (unsigned i = 0; i < p->nwords; i++) {
        uint64_t w = below(3) ? usual : is_wide ? wide[below(9)] : narrow[below(8)];
        uint64_t open = random_number() | random_number(), v = random_number() & ones(w);
        if (is_wide)
            for (unsigned bits = below(5), n = open = 0; n < bits; n++) open |= (uint64_t)1 << below((unsigned)w);
        p->words[3 * i] = w;
        p->words[3 * i + 1] = v & ~open;
        p->words[3 * i + 2] = (v | open) & ones(w);
    }
    unsigned wanted = below(MOST_RULES + 1);
    p->nrules = 0;
    for (unsigned tries = 0; p->nrules < wanted && tries < 200; tries++) {
        uint8_t *f = p->rules + 6 * p->nrules;
        uint64_t w[4] = {0, 0, 0, 0};
        // sums are the hardest to narrow
        int kind = below(4) ? 1 + (int)below(KINDS) : 6;
        f[0] = (uint8_t)kind;
        for (unsigned i = 0; i < 4; i++) {
            f[1 + i] = uses(kind, i) ? (uint8_t)below(p->nwords) : 0;
            w[i] = uses(kind, i) ? p->words[3 * f[1 + i]] : 0;
        }
        f[5] = kind == 8 || kind == 10 || kind == 11 ? (uint8_t)below(is_wide ? 64 : 4) : 0;
        if (kind > 9 && f[5] && below(4) == 0) f[5] = (uint8_t)(below(2) ? w[1] + below(2) : 255 - below(192)); // a shift by the width or more
        if (fit_widths(kind, w, f[5])) p->nrules++;
    }
    p->limit = below(4) ? 1000000 : below(8);
}

static void print(const problem *p) {
    printf("limit %u\nwords", p->limit);
    for (unsigned i = 0; i < 3 * p->nwords; i++) printf(" %llu", (unsigned long long)p->words[i]);
    printf("\nrules");
    for (unsigned i = 0; i < 6 * p->nrules; i++) printf(" %u", p->rules[i]);
    printf("\n");
}

static uint32_t answered(const problem *p, uint32_t *count, uint64_t *model) {
    table t;
    for (unsigned i = 0; i < p->nwords; i++) {
        t.lo[i] = p->words[3 * i + 1];
        t.hi[i] = p->words[3 * i + 2];
    }
    return slow_search(p, t, count, model);
}

static int agrees(const char *name, const problem *p, solved got, const uint64_t *model, uint32_t answer, uint32_t count, const uint64_t *wanted) {
    if (got.answer == answer && got.count == count && memcmp(model, wanted, sizeof(uint64_t) * MOST_WORDS) == 0) return 1;
    printf("%s gives answer %u count %u, every fit gives %u count %u\n", name, got.answer, got.count, answer, count);
    print(p);
    return 0;
}

int main(int argc, char **argv) {
    unsigned long problems = argc > 1 ? strtoul(argv[1], NULL, 10) : 100000, passed = 0, failed = 0;
    unsigned long answers[3] = {0, 0, 0}, guesses = 0;
    state = 88172645463325252u + (argc > 2 ? strtoul(argv[2], NULL, 10) : 0);
    for (unsigned long n = 0; n < problems; n++) {
        static problem p;
        make(&p);
        uint64_t slow[MOST_WORDS] = {0}, model[MOST_WORDS] = {0};
        uint32_t count = 0, answer = answered(&p, &count, slow);
        solved got = plain_solve(p.words, p.nwords, p.rules, p.nrules, p.limit, model);
        int good = agrees("the plain search", &p, got, model, answer, count, slow);
#ifdef PROVED
        memset(model, 0, sizeof model);
        got = proved_solve(p.words, p.nwords, p.rules, p.nrules, p.limit, model);
        good &= agrees("the proved call", &p, got, model, answer, count, slow) && work_is_zero();
#endif
        passed += good;
        failed += !good;
        answers[answer]++;
        guesses += count;
    }
    printf("found %lu, none %lu, gave up %lu, guesses %lu\n", answers[FOUND], answers[NONE], answers[GAVE_UP], guesses);
    printf("%lu passed, %lu failed\n", passed, failed);
    return failed != 0;
}
