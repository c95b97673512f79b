/*
 * How to size the stack that cellpool_collect_stack is lent: builds the plan that takes the most of it, and collects it with
 * as many words as that takes, with the words that a board lends, and by link reversal.
 *
 *   ./stack
 *
 * On a board, put its timer around collect() and its own numbers into CELLS and LENT (-DCELLS=500 -DLENT=16): what is measured
 * there is what a collection of CELLS cells that are all in use takes on this plan. The status is 0, or 1 where an answer is
 * not the expected one.
 */
#include "cellpool.h"

#include <stdio.h>

#ifndef CELLS
#define CELLS CELLPOOL_MOST_CELLS
#endif
#ifndef LENT
#define LENT 10u
#endif

static uint32_t words[CELLPOOL_WORDS(CELLS)];
/* An array has one element at least, also where no word is needed. */
static uint32_t stack[(CELLPOOL_STACK(CELLS) > LENT ? CELLPOOL_STACK(CELLS) : LENT) + 1u];

/* A collection with so many words of the stack, on the plan that takes `entries`. Every cell is in use, so it keeps all of them
   and leaves the plan as it is. With fewer words than that they are full again and again, and a check gives all of them back,
   since they hold cells without links; with none there is nothing to give back. */
static int collect(uint32_t stack_words, uint32_t entries) {
    uint32_t kept = 0, enough = 0, checks = 0, expected = 0;
    uint32_t answer = cellpool_collect_stack(words, CELLPOOL_WORDS(CELLS), stack, stack_words, &kept, &enough, &checks);
    if (stack_words < entries) expected = stack_words == 0 ? 1 : (entries - 1) / stack_words;
    if (answer != CELLPOOL_OK || kept != CELLS || checks != expected || enough != (stack_words > 0 || entries == 0)) {
        printf("stack: %s, %lu cells kept, enough: %lu, checks: %lu\n", cellpool_refusal_text(answer),
               (unsigned long)kept, (unsigned long)enough, (unsigned long)checks);
        return 1;
    }
    printf("with a stack of %lu: %s, checks: %lu\n", (unsigned long)stack_words,
           enough ? "enough" : "too short, link reversal did the work", (unsigned long)checks);
    return 0;
}

int main(void) {
    uint32_t entries = 0, kept = 0, visits = 0;
    uint32_t answer = cellpool_worst_case(words, CELLPOOL_WORDS(CELLS), &entries);
    if (answer != CELLPOOL_OK) {
        printf("stack: refused with %lu: %s\n", (unsigned long)answer, cellpool_refusal_text(answer));
        return 1;
    }
    printf("%lu cells, words of stack at most: %lu\n", (unsigned long)CELLS, (unsigned long)entries);
    if (collect(entries, entries) != 0 || collect(LENT, entries) != 0) return 1;
    answer = cellpool_collect(words, CELLPOOL_WORDS(CELLS), &kept, &visits);
    printf("by link reversal: %lu visits\n", (unsigned long)visits);
    return answer == CELLPOOL_OK && kept == CELLS ? 0 : 1;
}
