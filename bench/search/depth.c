// The greatest depth of stack that the proved call uses: it runs on a stack of its own that was filled with a pattern, and what it has written over is counted,
// less what a thread that does nothing writes over.
#define _GNU_SOURCE
#include "boards.h"
#include "plain.h"
#include "proved.h"
#include <pthread.h>
#include <stdio.h>
#include <stdlib.h>
#include <string.h>

enum { STACK = 8 << 20, PATTERN = 0xA5 };

static board problem;
static solved answer;

static void *idle(void *unused) {
    return unused;
}

static void *run(void *unused) {
    static uint64_t model[32];
    answer = proved_solve(problem.words, problem.nwords, problem.rules, problem.nrules, 1000000, model);
    return unused;
}

// Bytes of a stack that a thread has written over.
static size_t used(void *(*work)(void *)) {
    unsigned char *stack = aligned_alloc(4096, STACK);
    pthread_attr_t attr;
    pthread_t thread;
    if (!stack) exit(1);
    memset(stack, PATTERN, STACK);
    pthread_attr_init(&attr);
    if (pthread_attr_setstack(&attr, stack, STACK) || pthread_create(&thread, &attr, work, NULL) || pthread_join(thread, NULL)) exit(1);
    size_t low = 0;
    while (low < STACK && stack[low] == PATTERN) low++;
    free(stack);
    return STACK - low;
}

// 32 words of 64 open bits, and n rules "the last word is at most itself", which fix nothing: 2,048 levels
static size_t deepest(unsigned n) {
    static const uint8_t rule[6] = {12, 0, 31, 31, 0, 0};
    problem.nwords = 32;
    problem.nrules = n;
    for (unsigned i = 0; i < 32; i++) {
        problem.words[3 * i] = 64;
        problem.words[3 * i + 1] = 0;
        problem.words[3 * i + 2] = UINT64_MAX;
    }
    for (unsigned i = 0; i < n; i++) memcpy(problem.rules + 6 * i, rule, 6);
    return used(run);
}

int main(void) {
    size_t none = used(idle), plain = deepest(0) - none, ruled = deepest(1) - none;
    printf("stack at %u levels: %zu bytes without rules, %zu with a rule of 64 columns\n", answer.count, plain, ruled);
    return answer.count == 2048 ? 0 : 1;
}
