// A problem built word by word and rule by rule, with one word and one rule more than allowed, and its block file as the paper lays it out.
#ifndef PROBLEM_H
#define PROBLEM_H
#include "sievecrest.h"
#include <string.h>

enum { BLOCK = 512, HEAD = 8, MOST_BYTES = 8 * BLOCK };

typedef struct {
    const char *name;
    uint64_t words[3 * 33];
    uint8_t rules[6 * 253];
    size_t words_len, rules_len;
    uint32_t limit;
} problem;

static problem board;

static void begin(const char *name, uint32_t limit) {
    memset(&board, 0, sizeof board);
    board.name = name;
    board.limit = limit;
}

static void word(uint64_t width, uint64_t lo, uint64_t hi) {
    uint64_t *x = board.words + board.words_len;
    x[0] = width;
    x[1] = lo;
    x[2] = hi;
    board.words_len += 3;
}

static void rule(unsigned kind, unsigned r, unsigned a, unsigned b, unsigned s, unsigned k) {
    const unsigned fields[6] = {kind, r, a, b, s, k};
    for (int i = 0; i < 6; i++) board.rules[board.rules_len++] = (uint8_t)fields[i];
}

static void put_number(uint8_t *bytes, unsigned count, uint64_t number) {
    for (unsigned i = 0; i < count; i++) bytes[i] = (uint8_t)(number >> 8 * i);
}

// The check of a block set so that its sum is right.
static void seal(uint8_t *block) {
    uint16_t sum = 0;
    put_number(block + 6, 2, 0);
    for (int i = 0; i < BLOCK; i += 2) sum = (uint16_t)(sum + block[i] + 256 * block[i + 1]);
    put_number(block + 6, 2, 65535u - sum);
}

static uint8_t *start_block(uint8_t *file, size_t length, unsigned kind, size_t records) {
    uint8_t *block = file + length;
    memset(block, 0, BLOCK);
    block[0] = (uint8_t)kind;
    block[1] = 1;
    put_number(block + 2, 2, length / BLOCK);
    put_number(block + 4, 2, records);
    return block;
}

static size_t least(size_t a, size_t b) { return a < b ? a : b; }

// The board's file, also where the board is one that is refused; its length comes back. The file has room for MOST_BYTES.
static size_t encode(uint8_t *file) {
    size_t length = 0, words = board.words_len / 3, rules = board.rules_len / 6;
    for (size_t first = 0; first < words; first += 21, length += BLOCK) {
        uint8_t *block = start_block(file, length, 1, least(21, words - first));
        for (size_t i = first; i < least(words, first + 21); i++) {
            uint8_t *x = block + HEAD + 24 * (i - first);
            x[0] = (uint8_t)board.words[3 * i];
            put_number(x + 8, 8, board.words[3 * i + 1]);
            put_number(x + 16, 8, board.words[3 * i + 2]);
        }
        seal(block);
    }
    for (size_t first = 0; first < rules; first += 63, length += BLOCK) {
        uint8_t *block = start_block(file, length, 2, least(63, rules - first));
        for (size_t i = first; i < least(rules, first + 63); i++) memcpy(block + HEAD + 8 * (i - first), board.rules + 6 * i, 6);
        seal(block);
    }
    uint8_t *end = start_block(file, length, 3, 0);
    put_number(end + HEAD, 4, board.limit);
    seal(end);
    return length + BLOCK;
}

#endif
