// The published search in plain C with nothing proved: whole words are narrowed at once, changed words go on a trail, and only rules of
// changed words are visited again. It stands beside the proved call, for its speed and for its guess counts.
//
// Each rule is narrowed to the hull of its fits exactly, every field a place of its own; a count that differs from the published one is a fault.
#include "plain.h"

enum { COPY = 1, NOT, AND, OR, XOR, ADD, ITE, SLICE, JOIN, SHL, SHR, ULE, ULT, NE, WORDS = 32, OPEN = 2048, SETS = 4 };

typedef struct {
    uint64_t all; // ones below the width of r, or of a where the kind has no r
    uint8_t kind, r, a, b, s, k;
    uint8_t low;   // JOIN: the width of b
    uint8_t twice; // one word stands in two places: narrowing once may not be enough
} rule;

typedef struct {
    uint64_t lo, hi;
    uint32_t word;
} change;

typedef struct {
    uint32_t changes, word;
    uint64_t bit;
} guess;

typedef struct {
    uint64_t lo[WORDS], hi[WORDS];
    uint64_t dirty[SETS];        // rules still to be visited
    uint64_t users[WORDS][SETS]; // the rules that use a word
    rule rules[64 * SETS];
    change trail[OPEN];
    guess guesses[OPEN];
    uint32_t changes, sets; // entries of the trail; sets of 64 rules that hold any
} search;

// The word's bounds become no wider than lo, hi; 0 if nothing is left.
static inline int meet(search *x, unsigned i, uint64_t lo, uint64_t hi) {
    uint64_t l = x->lo[i] | lo, h = x->hi[i] & hi;
    if (l & ~h) return 0;
    if (l != x->lo[i] || h != x->hi[i]) {
        x->trail[x->changes++] = (change){x->lo[i], x->hi[i], i};
        x->lo[i] = l;
        x->hi[i] = h;
        x->dirty[0] |= x->users[i][0];
        for (unsigned j = 1; j < x->sets; j++) x->dirty[j] |= x->users[i][j];
    }
    return 1;
}

// A bit that is set in g goes down through set bits of p: one bit a round, since few go far.
static inline uint64_t down(uint64_t g, uint64_t p) {
    for (uint64_t n; (n = g | (p & g >> 1)) != g;) g = n;
    return g;
}

// ADD by the carries that each bit may take in. t01 has a bit where some column takes carry 0 in and gives carry 1 out, and so on.
//
// Upwards, "carry 1 can come" is t01 | t11 & (it came before), though t01 needs that carry 0 could come. Where it could not, carry 1 came, and
// t01 without t11 leaves no column at all (t01 and t10 together mean three open bits, and then t11): the test for a column finds that. So two
// plain additions give all carries that can come. Downwards likewise, "carry 1 must not come in" starts where no column takes it and goes on
// through columns that only pass it on.
static int add(search *x, const rule *u) {
    uint64_t rl = x->lo[u->r], rh = x->hi[u->r], al = x->lo[u->a], ah = x->hi[u->a], bl = x->lo[u->b], bh = x->hi[u->b], all = u->all;
    if (al == ah && bl == bh) {
        uint64_t v = (al + bl) & all;
        return meet(x, u->r, v, v);
    }
    if (rl == rh && (al == ah || bl == bh)) {
        uint64_t v = (rl - (al == ah ? al : bl)) & all;
        return meet(x, al == ah ? u->b : u->a, v, v);
    }
    uint64_t r0 = ~rl & all, a0 = ~al & all, b0 = ~bl & all;
    uint64_t both0 = a0 & b0, both1 = ah & bh, mixed = (a0 & bh) | (ah & b0);
    uint64_t t01 = both1 & r0, t10 = both0 & rh;
    uint64_t t00 = (both0 & r0) | (mixed & rh), t11 = (mixed & r0) | (both1 & rh);
    uint64_t s1 = (t01 | t11) + t01, s0 = (t10 | t00) + t10 + 1;
    uint64_t came1 = s1 ^ (t01 | t11) ^ t01, came0 = s0 ^ (t10 | t00) ^ t10;
    if (all & ~((came0 & (t00 | t01)) | (came1 & (t10 | t11)))) return 0;
    uint64_t no1 = all & ~t10 & ~t11, no0 = all & ~t00 & ~t01;
    no1 = down(no1, t11 & ~t10);
    no0 = down(no0, t00 & ~t01);
    uint64_t p00 = came0 & ~(no0 >> 1), p01 = came0 & ~(no1 >> 1), p10 = came1 & ~(no0 >> 1), p11 = came1 & ~(no1 >> 1);
    uint64_t z = p00 & r0 & both0, c = p01 & r0 & both1, d = p10 & rh & both0, e = p11 & rh & both1;
    uint64_t odd = (p00 & rh) | (p11 & r0), right = odd & a0 & bh, left = odd & ah & b0;
    uint64_t r1s = d | e | (p00 & rh & mixed), r0s = z | c | (p11 & r0 & mixed);
    return meet(x, u->r, all & ~r0s, r1s) && meet(x, u->a, all & ~(z | d | right), c | e | left) && meet(x, u->b, all & ~(z | d | left), c | e | right);
}

// x shifted up or down by k: 0 from 64 on.
static inline uint64_t shl(uint64_t x, unsigned k) { return k < 64 ? x << k : 0; }
static inline uint64_t shr(uint64_t x, unsigned k) { return k < 64 ? x >> k : 0; }

// One rule narrowed to the hull of its fits; 0 if it has none.
static inline int narrow(search *x, const rule *u) {
    uint64_t rl = x->lo[u->r], rh = x->hi[u->r], al = x->lo[u->a], ah = x->hi[u->a], bl = x->lo[u->b], bh = x->hi[u->b], all = u->all;
    switch (u->kind) {
    case COPY: return meet(x, u->r, al, ah) && meet(x, u->a, rl, rh);
    case NOT: return meet(x, u->r, all & ~ah, all & ~al) && meet(x, u->a, all & ~rh, all & ~rl);
    case AND:
        rl |= al & bl;
        rh &= ah & bh;
        return meet(x, u->r, rl, rh) && meet(x, u->a, rl, rh | ~bl) && meet(x, u->b, rl, rh | ~al);
    case OR:
        rl |= al | bl;
        rh &= ah | bh;
        return meet(x, u->r, rl, rh) && meet(x, u->a, rl & ~bh, rh) && meet(x, u->b, rl & ~ah, rh);
    case XOR: {
        // where two are fixed the third is; v has its value there
        uint64_t fr = rl | ~rh, fa = al | ~ah, fb = bl | ~bh;
        uint64_t vr = al ^ bl, va = rl ^ bl, vb = rl ^ al, kr = fa & fb, ka = fr & fb, kb = fr & fa;
        return meet(x, u->r, vr & kr, vr | ~kr) && meet(x, u->a, va & ka, va | ~ka) && meet(x, u->b, vb & kb, vb | ~kb);
    }
    case ADD: return add(x, u);
    case ITE: {
        int then = x->hi[u->s] && !((rl | al) & ~(rh & ah)), other = !x->lo[u->s] && !((rl | bl) & ~(rh & bh));
        if (then && other) return meet(x, u->r, al & bl, ah | bh);
        if (then) return meet(x, u->s, 1, 1) && meet(x, u->r, al, ah) && meet(x, u->a, rl, rh);
        if (other) return meet(x, u->s, 0, 0) && meet(x, u->r, bl, bh) && meet(x, u->b, rl, rh);
        return 0;
    }
    case SLICE: return meet(x, u->r, al >> u->k & all, ah >> u->k & all) && meet(x, u->a, rl << u->k, rh << u->k | ~(all << u->k));
    case JOIN: {
        uint64_t low = ((uint64_t)1 << u->low) - 1;
        return meet(x, u->r, al << u->low | bl, ah << u->low | bh) && meet(x, u->a, rl >> u->low, rh >> u->low) && meet(x, u->b, rl & low, rh & low);
    }
    case SHL: return meet(x, u->r, shl(al, u->k) & all, shl(ah, u->k) & all) && meet(x, u->a, shr(rl, u->k), shr(rh, u->k) | ~shr(all, u->k));
    case SHR: return meet(x, u->r, shr(al, u->k), shr(ah, u->k)) && meet(x, u->a, shl(rl, u->k) & all, shl(rh, u->k) | ~shl(all, u->k));
    case ULE:
    case ULT: {
        // a bit of a can be 1, or one of b 0, where it is no more than what lies between the least a and the greatest b
        if (bh < al || (u->kind == ULT && bh == al)) return 0;
        uint64_t room = bh - al - (u->kind == ULT), small = room ? UINT64_MAX >> __builtin_clzll(room) : 0;
        return meet(x, u->a, 0, al | small) && meet(x, u->b, bh & ~small, all);
    }
    default: { // NE: only a last open bit on either side is forced, and only where all else is equal
        uint64_t oa = al ^ ah, ob = bl ^ bh;
        if ((oa && ob) || ((oa | ob) & ((oa | ob) - 1)) || ((al ^ bl) & ~(oa | ob))) return 1;
        if (oa) return meet(x, u->a, oa & ~bl, ~(oa & bl));
        if (ob) return meet(x, u->b, ob & ~al, ~(ob & al));
        return 0;
    }
    }
}

// The rules that are to be visited, and those that this changes, until none is left; 0 on a conflict.
static int tighten(search *x) {
    for (unsigned j = 0; j < x->sets;) {
        if (!x->dirty[j]) {
            j++;
            continue;
        }
        unsigned i = 64 * j + (unsigned)__builtin_ctzll(x->dirty[j]);
        const rule *u = &x->rules[i];
        if (u->twice) {
            x->dirty[j] &= x->dirty[j] - 1;
            if (!narrow(x, u)) return 0;
        } else {
            if (!narrow(x, u)) return 0;
            x->dirty[j] &= ~((uint64_t)1 << (i & 63));
        }
        j = 0;
    }
    return 1;
}

static void load(search *x, const uint64_t *words, size_t nwords, const uint8_t *rules, size_t nrules) {
    for (unsigned j = 0; j < SETS; j++) x->dirty[j] = 0;
    for (unsigned i = 0; i < WORDS; i++) {
        x->lo[i] = i < nwords ? words[3 * i + 1] : 0;
        x->hi[i] = i < nwords ? words[3 * i + 2] : 0;
        for (unsigned j = 0; j < SETS; j++) x->users[i][j] = 0;
    }
    for (unsigned i = 0; i < nrules; i++) {
        const uint8_t *f = rules + 6 * i;
        int kind = f[0], r = f[1], a = f[2], b = f[3], s = f[4];
        int has_r = kind < ULE, has_b = kind != COPY && kind != NOT && kind != SLICE && kind != SHL && kind != SHR, has_s = kind == ITE;
        int twice = (has_r && (r == a || (has_b && r == b) || (has_s && r == s))) || (has_b && a == b) || (has_s && (a == s || b == s));
        uint64_t all = UINT64_MAX >> (64 - words[3 * (has_r ? r : a)]);
        x->rules[i] = (rule){all, f[0], f[1], f[2], f[3], f[4], f[5], kind == JOIN ? (uint8_t)words[3 * b] : 0, (uint8_t)twice};
        uint64_t bit = (uint64_t)1 << (i & 63);
        if (has_r) x->users[r][i / 64] |= bit;
        x->users[a][i / 64] |= bit;
        if (has_b) x->users[b][i / 64] |= bit;
        if (has_s) x->users[s][i / 64] |= bit;
        x->dirty[i / 64] |= bit;
    }
    x->changes = 0;
    x->sets = (uint32_t)((nrules + 63) / 64);
}

solved plain_solve(const uint64_t *words, size_t nwords, const uint8_t *rules, size_t nrules, uint32_t limit, uint64_t *model) {
    static _Thread_local search x;
    uint32_t count = 0, depth = 0, first = 0;
    load(&x, words, nwords, rules, nrules);
    for (;;) {
        int fits = tighten(&x);
        while (!fits) {
            if (depth == 0) return (solved){NONE, count};
            const guess *g = &x.guesses[--depth];
            while (x.changes > g->changes) {
                const change *c = &x.trail[--x.changes];
                x.lo[c->word] = c->lo;
                x.hi[c->word] = c->hi;
            }
            for (unsigned j = 0; j < x.sets; j++) x.dirty[j] = 0;
            first = g->word;
            meet(&x, first, g->bit, UINT64_MAX);
            fits = tighten(&x);
        }
        while (first < nwords && x.lo[first] == x.hi[first]) first++;
        if (first == nwords) break;
        if (count == limit) return (solved){GAVE_UP, count};
        count++;
        uint64_t bit = (uint64_t)1 << (63 - __builtin_clzll(x.lo[first] ^ x.hi[first]));
        x.guesses[depth++] = (guess){x.changes, first, bit};
        meet(&x, first, 0, ~bit);
    }
    for (size_t i = 0; i < nwords; i++) model[i] = x.lo[i];
    return (solved){FOUND, count};
}
