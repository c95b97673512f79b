/* The functions of cellpool.h in plain C, under names of their own, and two more. */
#ifndef BASELINE_H
#define BASELINE_H

#include "cellpool.h"

uint32_t baseline_fresh(uint32_t *, size_t, uint32_t *, uint32_t *);
uint32_t baseline_copy(uint32_t *, size_t, uint32_t, uint32_t);
uint32_t baseline_clear(uint32_t *, size_t, uint32_t);
uint32_t baseline_new(uint32_t *, size_t, uint32_t, uint32_t, uint32_t, uint32_t, uint32_t *);
uint32_t baseline_point(uint32_t *, size_t, uint32_t, uint32_t, uint32_t, uint32_t, uint32_t *);
uint32_t baseline_left(uint32_t *, size_t, uint32_t, uint32_t);
uint32_t baseline_right(uint32_t *, size_t, uint32_t, uint32_t);
uint32_t baseline_setleft(uint32_t *, size_t, uint32_t, uint32_t);
uint32_t baseline_setright(uint32_t *, size_t, uint32_t, uint32_t);
uint32_t baseline_setvalue(uint32_t *, size_t, uint32_t, uint32_t);
uint32_t baseline_value(const uint32_t *, size_t, uint32_t, uint32_t *);
uint32_t baseline_east(const uint32_t *, size_t, uint32_t, uint32_t *);
uint32_t baseline_north(const uint32_t *, size_t, uint32_t, uint32_t *);
uint32_t baseline_same(const uint32_t *, size_t, uint32_t, uint32_t, uint32_t *);
uint32_t baseline_collect(uint32_t *, size_t, uint32_t *, uint32_t *);
uint32_t baseline_collect_tally(uint32_t *, size_t, uint32_t *, uint32_t *, uint32_t *, uint32_t *);
uint32_t baseline_collect_stack(uint32_t *, size_t, uint32_t *, size_t, uint32_t *, uint32_t *, uint32_t *);
uint32_t baseline_worst_case(uint32_t *, size_t, uint32_t *);
uint32_t baseline_collect_recursive(uint32_t *, size_t, uint32_t *, uint32_t *);
uint32_t baseline_save(const uint32_t *, size_t, uint32_t *, size_t, uint8_t *, size_t, size_t *);
uint32_t baseline_load(uint32_t *, size_t, const uint8_t *, size_t, size_t *);
uint32_t baseline_check_image(const uint8_t *, size_t, uint32_t);
uint32_t baseline_occupancy(uint32_t, uint32_t, uint32_t *);

/* Mark a well-formed pool by link reversal, one visit after the other, and tell how often each of the five cases of
   source document 000 and that of a point came (times, case 1 first, that of a point last), how many runs began, the case of
   every visit, and the cells that cases 2 and 4 went to, in order. The marks stay. The last two are lent with room for three
   visits of every cell. */
uint32_t baseline_mark_by_cases(uint32_t *words, size_t len, uint32_t *times, uint32_t *runs, uint8_t *cases,
                                uint32_t *entered);

/* As baseline_collect_stack without checks: where the stack is full, link reversal does the work at once. */
uint32_t baseline_collect_stack_unchecked(uint32_t *words, size_t len, uint32_t *stack, size_t stack_len, uint32_t *kept,
                                          uint32_t *enough);

#endif
