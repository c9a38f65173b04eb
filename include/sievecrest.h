/* The calls of Sievecrest for C99 and C++, on Linux on x86-64: link with libsievecrest.a, which `rt lib` in crates/sievecrest proves and builds.

How a problem is lent. `words` are numbers of 64 bits, SIEVECREST_WORD_NUMBERS a word: width, lo, hi. `rules` are bytes, SIEVECREST_RULE_BYTES a rule: kind,
r, a, b, s, k; a field that the kind does not use is 0. Each lent buffer is followed by its length: how many numbers, bytes or entries it has. So three words
have a length of 9, and two rules one of 12. `limit` is the number of guesses allowed, at most SIEVECREST_MAX_LIMIT. docs/MANUAL.md says what words, rules
and answers mean.

What C must keep, since no call can test it:
  - a pointer is not null, is aligned for its type, and is valid for its whole length; it is not null for a length of 0 either;
  - no lent buffer overlaps another one;
  - while a call runs, nobody else writes what is lent to it, or reads what the call may write;
  - a call that searches (solve, cause, advise) has enough stack: one mebibyte was enough on the boards measured, and docs/MANUAL.md says how much was used.
A program without the C library brings a memset, the only function that libsievecrest.a asks for.
No call keeps anything after it has returned, so calls with buffers of their own may run at the same time.

What comes back. Every call returns one number of 64 bits: the answer's own number in bits 0 to 7, below SIEVECREST_FOUND a refusal; in bits 8 to 39 its
detail, which is its place, count, value, limit or length, by the answer; in bits 40 to 63 how many entries it has, for a file read words in 40 to 47 and rules
in 48 to 63. Bits that an answer does not use are 0. The functions sievecrest_number to sievecrest_rules take it apart, and each gives 0 where the answer has
no such part.

What stands in lent memory. A refusal alters nothing at all. Any other answer leaves work memory all 0, over its whole length; work memory need not be cleared
before. A buffer with more room than asked for keeps the rest as it was, work memory excepted. What is lent as const is never altered.

A worked example, which is tests/c/worked.c:

    // A clock generator with a crystal of 10 MHz: which multiplier gives an output within two bounds, and where none does, which rules conflict?
    // There is no rule for products: ten times the multiplier is eight times and twice, by shifts and a sum.
    #include "sievecrest.h"
    #include <inttypes.h>
    #include <stdio.h>

    enum { MULTIPLIER, EIGHT_TIMES, TWICE, OUTPUT, LEAST, MOST, NOISY, WORDS };

    // kind, r, a, b, s, k
    static const uint8_t rules[] = {
        SIEVECREST_KIND_SHL, EIGHT_TIMES, MULTIPLIER, 0, 0, 3, // rule 0
        SIEVECREST_KIND_SHL, TWICE, MULTIPLIER, 0, 0, 1,       // rule 1
        SIEVECREST_KIND_ADD, OUTPUT, EIGHT_TIMES, TWICE, 0, 0, // rule 2
        SIEVECREST_KIND_NE, 0, MULTIPLIER, NOISY, 0, 0,        // rule 3
        SIEVECREST_KIND_ULE, 0, LEAST, OUTPUT, 0, 0,           // rule 4
        SIEVECREST_KIND_ULE, 0, OUTPUT, MOST, 0, 0,            // rule 5
    };

    static uint64_t work[SIEVECREST_CAUSE_WORK]; // enough for solve too

    static void print_cause(const uint64_t *words) {
        uint16_t list[SIEVECREST_MAX_RULES];
        uint64_t x = sievecrest_cause(words, 3 * WORDS, rules, sizeof rules, 1000, list, SIEVECREST_MAX_RULES, work, SIEVECREST_CAUSE_WORK);
        if (sievecrest_number(x) != SIEVECREST_CAUSE) {
            printf("no cause within the limit\n");
            return;
        }
        printf("conflicting rules");
        for (uint32_t i = 0; i < sievecrest_entries(x); i++) printf(" %" PRIu16, list[i]);
        printf("\n");
    }

    static void advise(uint64_t least, uint64_t most) {
        // width, lo, hi: all words have 10 bits, and of the multiplier the lowest 6 are open
        const uint64_t words[3 * WORDS] = {10, 0, 63, 10, 0, 1023, 10, 0, 1023, 10, 0, 1023, 10, least, least, 10, most, most, 10, 40, 40};
        uint64_t model[WORDS];
        uint64_t x = sievecrest_solve(words, 3 * WORDS, rules, sizeof rules, 1000, model, WORDS, work, SIEVECREST_CAUSE_WORK);
        printf("%" PRIu64 " to %" PRIu64 " MHz: ", least, most);
        if (sievecrest_number(x) == SIEVECREST_FOUND)
            printf("multiplier %" PRIu64 ", output %" PRIu64 " MHz, %" PRIu32 " guesses\n", model[MULTIPLIER], model[OUTPUT], sievecrest_count(x));
        else if (sievecrest_number(x) == SIEVECREST_NONE)
            print_cause(words);
        else if (sievecrest_number(x) == SIEVECREST_GAVE_UP)
            printf("not decided within %" PRIu32 " guesses\n", sievecrest_count(x));
        else
            printf("refused at %" PRIu32 ": %s\n", sievecrest_place(x), sievecrest_refusal_text(sievecrest_number(x)));
    }

    int main(void) {
        advise(400, 440);
        advise(401, 409);
        advise(400, 1024); // 1024 has more than 10 bits
        return 0;
    }

It prints

    400 to 440 MHz: multiplier 41, output 410 MHz, 3 guesses
    401 to 409 MHz: conflicting rules 0 1 2 4 5
    400 to 1024 MHz: refused at 5: the word's lo has a 1 where hi has 0, or a bound has a 1 at or above the width; look at what the board fixes
*/
#ifndef SIEVECREST_H
#define SIEVECREST_H

#include <stddef.h>
#include <stdint.h>

/* The project's version. */
#define SIEVECREST_VERSION "1.0.0"

/* Refusals: what is wrong, and the place that comes with it. sievecrest_refusal_text says each in words. */
#define SIEVECREST_REFUSED_SIZE 1    /* a length, or a lent buffer too short; place 0 */
#define SIEVECREST_REFUSED_CHECK 2   /* a block's sum; the block */
#define SIEVECREST_REFUSED_LAYOUT 3  /* anything else about a file's blocks; the block */
#define SIEVECREST_REFUSED_WIDTH 4   /* a width that is not 1 to SIEVECREST_MAX_WIDTH; the word */
#define SIEVECREST_REFUSED_TABLE 5   /* lo has a 1 where hi has 0, or a bound is wider than the word; the word */
#define SIEVECREST_REFUSED_KIND 6    /* a kind that is not 1 to 14; the rule */
#define SIEVECREST_REFUSED_FIELD 7   /* a word that is not there, or an unused field that is not 0; the rule */
#define SIEVECREST_REFUSED_FIT 8     /* widths, or the k of a SLICE; the rule */
#define SIEVECREST_REFUSED_LIMIT 9   /* a limit over SIEVECREST_MAX_LIMIT; place 0 */
#define SIEVECREST_REFUSED_ASK 10    /* an explanation of what is no open bit of a rule's place; place 0 */
#define SIEVECREST_REFUSED_EMPTY 11  /* a cause without any rule, which is proved never to come; place 0 */

/* Answers that are no refusals. */
#define SIEVECREST_FOUND 32
#define SIEVECREST_NONE 33
#define SIEVECREST_GAVE_UP 34
#define SIEVECREST_OK 35
#define SIEVECREST_TIGHT 36
#define SIEVECREST_CONFLICT 37
#define SIEVECREST_FORCED 38
#define SIEVECREST_FREE 39
#define SIEVECREST_EXISTS 40
#define SIEVECREST_CAUSE 41

/* Kinds of rules. */
#define SIEVECREST_KIND_COPY 1
#define SIEVECREST_KIND_NOT 2
#define SIEVECREST_KIND_AND 3
#define SIEVECREST_KIND_OR 4
#define SIEVECREST_KIND_XOR 5
#define SIEVECREST_KIND_ADD 6
#define SIEVECREST_KIND_ITE 7
#define SIEVECREST_KIND_SLICE 8
#define SIEVECREST_KIND_JOIN 9
#define SIEVECREST_KIND_SHL 10    /* k may be 0 to 255: at the width of r, or above, r is 0 */
#define SIEVECREST_KIND_SHR 11    /* likewise */
#define SIEVECREST_KIND_ULE 12
#define SIEVECREST_KIND_ULT 13
#define SIEVECREST_KIND_NE 14

/* Places of a rule, for an explanation and the entries of its reason: 64 times place plus bit. */
#define SIEVECREST_PLACE_R 0
#define SIEVECREST_PLACE_A 1
#define SIEVECREST_PLACE_B 2
#define SIEVECREST_PLACE_S 3

/* The bits of a returned number at which its parts begin, after the answer's own number. */
#define SIEVECREST_DETAIL_SHIFT 8    /* the detail: place, count, value, limit or length, by the answer */
#define SIEVECREST_ENTRIES_SHIFT 40  /* entries of a reason or a cause */
#define SIEVECREST_WORDS_SHIFT 40    /* words of a file read */
#define SIEVECREST_RULES_SHIFT 48    /* rules of a file read */

/* The most of each. */
#define SIEVECREST_MAX_WIDTH 64         /* bits of a word */
#define SIEVECREST_MAX_WORDS 32         /* words of a problem */
#define SIEVECREST_MAX_RULES 252        /* rules of a problem */
#define SIEVECREST_MAX_LIMIT 1000000    /* guesses allowed */
#define SIEVECREST_MAX_FILE_BYTES 3584  /* bytes of a block file */

/* What is lent: how a problem lies in memory, and the least length of each buffer whose length is fixed. */
#define SIEVECREST_WORD_NUMBERS 3      /* numbers a word */
#define SIEVECREST_RULE_BYTES 6        /* bytes a rule */
#define SIEVECREST_BLOCK_BYTES 512     /* bytes of a block */
#define SIEVECREST_TIGHTEN_WORK 320    /* numbers of work memory for tighten */
#define SIEVECREST_SOLVE_WORK 4608     /* for solve */
#define SIEVECREST_CAUSE_WORK 5120     /* for cause */
#define SIEVECREST_ADVISE_WORK 5120    /* for advise */
#define SIEVECREST_REASON_ENTRIES 193  /* entries of the list for explain */
#define SIEVECREST_READ_NUMBERS 96     /* numbers for the words that read stores */
#define SIEVECREST_READ_BYTES 1512     /* bytes for the rules that read stores */
#define SIEVECREST_LINES_BYTES 2304    /* bytes for the lines of advise */

#ifdef __cplusplus
extern "C" {
#endif

/* Whether a problem is proper. OK, or refused by SIZE, WIDTH, TABLE, KIND, FIELD, FIT, LIMIT. Nothing is altered. */
uint64_t sievecrest_check(const uint64_t *words, size_t words_len, const uint8_t *rules, size_t rules_len, uint32_t limit);

/* Tightens the table. TIGHT: the bounds in `words` are those of the widest tight table, the widths stay. CONFLICT: there is none, `words` stay as they were.
   Refusals as of check, without LIMIT; SIZE also where work_len < SIEVECREST_TIGHTEN_WORK. */
uint64_t sievecrest_tighten(uint64_t *words, size_t words_len, const uint8_t *rules, size_t rules_len, uint64_t *work, size_t work_len);

/* Solves the problem. FOUND with the guess count: the first numbers of `model`, one a word, are the first settings in word order. NONE with the count: there
   are no settings. GAVE_UP with the limit as count: one more guess was needed; nothing is said about settings. Only FOUND alters `model`.
   Refusals as of check; SIZE also where work_len < SIEVECREST_SOLVE_WORK or model_len < the number of words. */
uint64_t sievecrest_solve(const uint64_t *words, size_t words_len, const uint8_t *rules, size_t rules_len, uint32_t limit, uint64_t *model, size_t model_len,
                          uint64_t *work, size_t work_len);

/* Says why a bit must be what it is: of rule number `rule`, one of its places and an open bit there, over the table as it is lent. FORCED with the bit's value,
   or CONFLICT, where the rule has no fit: the first entries of `list` are the reason, each 64 times place plus bit, and their number is returned. FREE: the
   list stays as it was. Refusals as of check, without LIMIT, then ASK; SIZE also where list_len < SIEVECREST_REASON_ENTRIES. */
uint64_t sievecrest_explain(const uint64_t *words, size_t words_len, const uint8_t *rules, size_t rules_len, uint64_t rule, uint64_t place, uint64_t bit,
                            uint16_t *list, size_t list_len);

/* Names conflicting rules of a problem without settings: a minimal unsatisfiable subset, found by deletion. CAUSE with the sum of all guesses: the first
   entries of `list` are the rule numbers, ascending, and their number, at least 1, is returned. EXISTS with the guess count: there are settings. GAVE_UP with
   the sum: a search gave up. Only CAUSE alters `list`.
   Refusals as of check; SIZE also where work_len < SIEVECREST_CAUSE_WORK or list_len < the number of rules. */
uint64_t sievecrest_cause(const uint64_t *words, size_t words_len, const uint8_t *rules, size_t rules_len, uint32_t limit, uint16_t *list, size_t list_len,
                          uint64_t *work, size_t work_len);

/* Reads a block file. OK with the limit and the numbers of words and rules, whose records stand at the beginning of `words` and `rules`.
   SIZE where the file's length is not 1 to 7 times 512, words_len < SIEVECREST_READ_NUMBERS or rules_len < SIEVECREST_READ_BYTES; then CHECK and LAYOUT block
   by block, then WIDTH to LIMIT. */
uint64_t sievecrest_read(const uint8_t *file, size_t file_len, uint64_t *words, size_t words_len, uint8_t *rules, size_t rules_len);

/* Writes a problem as a block file. OK with the file's length in bytes, which stand at the beginning of `file`: 512 for every 21 words or part of 21, 512 for
   every 63 rules or part of 63, and 512 for the end; SIEVECREST_MAX_FILE_BYTES are always enough. Refusals as of check; SIZE also where file_len is below the
   file's own length. */
uint64_t sievecrest_write(const uint64_t *words, size_t words_len, const uint8_t *rules, size_t rules_len, uint32_t limit, uint8_t *file, size_t file_len);

/* Advises on a block file, as the adviser program does. OK with the length in bytes of the lines, which stand at the beginning of `out`; for a file that is
   refused the answer is OK too, and its line says so. SIZE where out_len < SIEVECREST_LINES_BYTES or work_len < SIEVECREST_ADVISE_WORK. */
uint64_t sievecrest_advise(const uint8_t *file, size_t file_len, uint8_t *out, size_t out_len, uint64_t *work, size_t work_len);

#ifdef __cplusplus
}
#endif

/* The answer's own number: one of SIEVECREST_REFUSED_SIZE to SIEVECREST_CAUSE. */
static inline uint32_t sievecrest_number(uint64_t x) { return x & 255; }

/* Whether it is a refusal. */
static inline int sievecrest_is_refusal(uint64_t x) { return sievecrest_number(x) < SIEVECREST_FOUND; }

/* The 32 bits of a returned number from a bit on, as they are. */
static inline uint32_t sievecrest_bits(uint64_t x, unsigned bit) { return x >> bit & UINT32_MAX; }

/* The detail, whichever answer it belongs to. The functions below say what it is. */
static inline uint32_t sievecrest_detail(uint64_t x) { return sievecrest_bits(x, SIEVECREST_DETAIL_SHIFT); }

/* The place of a refusal: the number of a block, a word or a rule. 0 for other answers. */
static inline uint32_t sievecrest_place(uint64_t x) { return sievecrest_is_refusal(x) ? sievecrest_detail(x) : 0; }

/* The guess count of FOUND, NONE and EXISTS; of GAVE_UP the limit (solve) or the sum of all searches (cause); of CAUSE the sum. 0 for other answers. */
static inline uint32_t sievecrest_count(uint64_t x) {
    switch (sievecrest_number(x)) {
    case SIEVECREST_FOUND:
    case SIEVECREST_NONE:
    case SIEVECREST_GAVE_UP:
    case SIEVECREST_EXISTS:
    case SIEVECREST_CAUSE: return sievecrest_detail(x);
    default: return 0;
    }
}

/* The value of a FORCED bit. 0 for other answers. */
static inline uint32_t sievecrest_value(uint64_t x) { return sievecrest_number(x) == SIEVECREST_FORCED ? sievecrest_detail(x) : 0; }

/* The number of entries of a reason (CONFLICT, FORCED) or of a cause (CAUSE). 0 for other answers, and for CONFLICT of tighten. */
static inline uint32_t sievecrest_entries(uint64_t x) {
    switch (sievecrest_number(x)) {
    case SIEVECREST_CONFLICT:
    case SIEVECREST_FORCED:
    case SIEVECREST_CAUSE: return sievecrest_bits(x, SIEVECREST_ENTRIES_SHIFT);
    default: return 0;
    }
}

/* What comes with OK; 0 for other answers. OK has one number for all calls, so ask for what the call that you made returns: length of write and advise; limit,
   words and rules of read. All four are 0 for OK of check. The detail of read is a limit and that of write and advise a length: asked for the other one, a
   function gives that number. */
static inline uint32_t sievecrest_length(uint64_t x) { return sievecrest_number(x) == SIEVECREST_OK ? sievecrest_detail(x) : 0; }
static inline uint32_t sievecrest_limit(uint64_t x) { return sievecrest_number(x) == SIEVECREST_OK ? sievecrest_detail(x) : 0; }
static inline uint32_t sievecrest_words(uint64_t x) { return sievecrest_number(x) == SIEVECREST_OK ? sievecrest_bits(x, SIEVECREST_WORDS_SHIFT) & 255 : 0; }
static inline uint32_t sievecrest_rules(uint64_t x) { return sievecrest_number(x) == SIEVECREST_OK ? sievecrest_bits(x, SIEVECREST_RULES_SHIFT) : 0; }

/* What is wrong, and what to do, for a refusal's number. Where the text says "the block", "the word" or "the rule", the place says which. */
static inline const char *sievecrest_refusal_text(uint32_t number) {
    switch (number) {
    case SIEVECREST_REFUSED_SIZE:
        return "over 32 words or 252 rules, a record cut short, a file not of 1 to 7 blocks, or a short buffer; split it, give the whole file, or lend more";
    case SIEVECREST_REFUSED_CHECK: return "the block's sum is wrong; fetch the file again, or write it anew";
    case SIEVECREST_REFUSED_LAYOUT: return "the block cannot stand there; look at its kind, edition, number, record count and zeros, or write the file anew";
    case SIEVECREST_REFUSED_WIDTH: return "the word's width is not 1 to 64; give the register's width";
    case SIEVECREST_REFUSED_TABLE: return "the word's lo has a 1 where hi has 0, or a bound has a 1 at or above the width; look at what the board fixes";
    case SIEVECREST_REFUSED_KIND: return "the rule's kind is not 1 to 14; use the number of a kind";
    case SIEVECREST_REFUSED_FIELD:
        return "the rule names a word that is not there, or sets a field that its kind does not use; name a word, or clear the field";
    case SIEVECREST_REFUSED_FIT: return "the rule's widths, or the k of a SLICE, do not fit; compare the widths with what its kind asks for";
    case SIEVECREST_REFUSED_LIMIT: return "the limit is over 1000000; give a smaller one";
    case SIEVECREST_REFUSED_ASK: return "no such rule, a place that its kind does not use, or a bit not below the width or not open; ask for an open bit";
    case SIEVECREST_REFUSED_EMPTY: return "a cause without any rule, which is proved never to come; report it with the problem";
    default: return "no such refusal; build the library and what calls it from the same sources";
    }
}

#endif
