// Boards that make many guesses, for measuring: each is a function that writes its words and rules, named for what stands on it.
#ifndef BOARDS_H
#define BOARDS_H
#include <stdint.h>

enum { COPY = 1, NOT, AND, OR, XOR, ADD, ITE, SLICE, JOIN, SHL, SHR, ULE, ULT, NE };

typedef struct {
    uint64_t words[3 * 32];
    uint8_t rules[6 * 252];
    unsigned nwords, nrules;
} board;

static uint8_t word(board *p, unsigned w, uint64_t lo, uint64_t hi) {
    uint64_t *x = p->words + 3 * p->nwords;
    x[0] = w;
    x[1] = lo;
    x[2] = hi;
    return (uint8_t)p->nwords++;
}

static uint8_t open_word(board *p, unsigned w) { return word(p, w, 0, UINT64_MAX >> (64 - w)); }

static uint8_t fixed(board *p, unsigned w, uint64_t v) { return word(p, w, v, v); }

static void rule(board *p, uint8_t kind, uint8_t r, uint8_t a, uint8_t b, uint8_t s, uint8_t k) {
    uint8_t *x = p->rules + 6 * p->nrules++;
    x[0] = kind;
    x[1] = r;
    x[2] = a;
    x[3] = b;
    x[4] = s;
    x[5] = k;
}

// a new word that a rule of two operands computes
static uint8_t computed(board *p, unsigned w, uint8_t kind, uint8_t a, uint8_t b) {
    uint8_t r = open_word(p, w);
    rule(p, kind, r, a, b, 0, 0);
    return r;
}

// a new word: a shifted by k
static uint8_t shifted(board *p, unsigned w, uint8_t kind, uint8_t a, uint8_t k) {
    uint8_t r = open_word(p, w);
    rule(p, kind, r, a, 0, 0, k);
    return r;
}

static void all_differ(board *p, const uint8_t *x, unsigned n) {
    for (unsigned i = 0; i < n; i++)
        for (unsigned j = i + 1; j < n; j++) rule(p, NE, 0, x[i], x[j], 0, 0);
}

// 32 open words of 64 bits without rules: a guess for each bit, and nothing to narrow
static void free_words(board *p) {
    for (unsigned i = 0; i < 32; i++) open_word(p, 64);
}

// nine words of 3 bits that all differ
static void clique(board *p) {
    uint8_t x[9];
    for (unsigned i = 0; i < 9; i++) x[i] = open_word(p, 3);
    all_differ(p, x, 9);
}

// eight words of 3 bits, each at most 6, that all differ
static void pigeons(board *p) {
    uint8_t x[8], six;
    for (unsigned i = 0; i < 8; i++) x[i] = open_word(p, 3);
    six = fixed(p, 3, 6);
    for (unsigned i = 0; i < 8; i++) rule(p, ULE, 0, x[i], six, 0, 0);
    all_differ(p, x, 8);
}

// a number of 32 bits, 17 of them open, three times mixed with itself by shifts, sums and exclusive or, has to give another number
static void mixed(board *p) {
    uint8_t x = word(p, 32, 0, 0x0f3f007f);
    for (unsigned i = 0; i < 3; i++) {
        uint8_t u = computed(p, 32, ADD, x, shifted(p, 32, SHL, x, 11));
        uint8_t v = computed(p, 32, XOR, x, shifted(p, 32, SHR, x, 7));
        x = computed(p, 32, ADD, u, v);
    }
    rule(p, COPY, fixed(p, 32, 0x4b21c371), x, 0, 0, 0);
}

// four words of 64 bits, 9 bits of each open, in rising order, with given sum and given exclusive or
static void rising(board *p) {
    uint8_t x[4];
    for (unsigned i = 0; i < 4; i++) x[i] = word(p, 64, 0, 0x3000080000f0000c);
    uint8_t t = computed(p, 64, ADD, computed(p, 64, ADD, x[0], x[1]), x[2]);
    uint8_t o = computed(p, 64, XOR, computed(p, 64, XOR, x[0], x[1]), x[2]);
    rule(p, ADD, fixed(p, 64, 0x2000100001800014), t, x[3], 0, 0);
    rule(p, XOR, fixed(p, 64, 0x3000000000400000), o, x[3], 0, 0);
    for (unsigned i = 0; i < 3; i++) rule(p, ULT, 0, x[i], x[i + 1], 0, 0);
}

// a chain of sums of 32 bits: three times the sum of six words, 5 bits of each open, is given
static void sums(board *p) {
    uint8_t x[6], t;
    for (unsigned i = 0; i < 6; i++) x[i] = word(p, 32, 0, 0x01010111u << (i % 4));
    t = x[0];
    for (unsigned i = 1; i < 6; i++) t = computed(p, 32, ADD, t, x[i]);
    t = computed(p, 32, ADD, t, t);
    for (unsigned i = 0; i < 6; i++) t = computed(p, 32, ADD, t, x[i]);
    rule(p, COPY, fixed(p, 32, 0x2d3635ca), t, 0, 0, 0);
}

// the lesser and the greater of each pair of three words, by muxes, do not add up to twice the words
static void muxes(board *p) {
    uint8_t x[3], total = 0;
    for (unsigned i = 0; i < 3; i++) x[i] = open_word(p, 4);
    for (unsigned i = 0; i < 3; i++) {
        uint8_t a = x[i], b = x[(i + 1) % 3], s = open_word(p, 1), least = open_word(p, 4), most = open_word(p, 4);
        rule(p, ITE, least, a, b, s, 0);
        rule(p, ITE, most, b, a, s, 0);
        rule(p, ULE, 0, least, most, 0, 0);
        uint8_t both = computed(p, 4, ADD, least, most);
        total = i ? computed(p, 4, ADD, total, both) : both;
    }
    uint8_t once = computed(p, 4, ADD, computed(p, 4, ADD, x[0], x[1]), x[2]);
    rule(p, NE, 0, total, computed(p, 4, ADD, once, once), 0, 0);
}

// a register of 64 bits with eight fields of 8 bits, each above the one before, whose sum and exclusive or are given
static void fields(board *p) {
    uint8_t reg = word(p, 64, 0, 0x3f3f3f3f3f3f3f3f), x[8], t, o;
    for (unsigned i = 0; i < 8; i++) x[i] = shifted(p, 8, SLICE, reg, (uint8_t)(8 * i));
    t = o = x[0];
    for (unsigned i = 1; i < 8; i++) {
        t = computed(p, 8, ADD, t, x[i]);
        o = computed(p, 8, XOR, o, x[i]);
    }
    for (unsigned i = 0; i < 7; i++) rule(p, ULT, 0, x[i + 1], x[i], 0, 0);
    rule(p, COPY, fixed(p, 8, 0x9d), t, 0, 0, 0);
    rule(p, COPY, fixed(p, 8, 0x04), o, 0, 0, 0);
}

typedef struct {
    const char *name;
    void (*make)(board *);
    uint32_t limit;
} named_board;

static const named_board BOARDS[] = {
    {"free-64", free_words, 1000000}, {"clique-3", clique, 100000}, {"pigeons-3", pigeons, 1000000}, {"mixed-32", mixed, 1000000},
    {"rising-64", rising, 1000000},   {"sums-32", sums, 1000000},   {"muxes-4", muxes, 1000000},     {"fields-64", fields, 50000},
};

#endif
