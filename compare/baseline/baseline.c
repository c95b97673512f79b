/*
 * The functions of cellpool.h in plain C, with the algorithms of the source documents: the benchmark's C baseline, and
 * what the fuzz target compares the library with. Its functions are named baseline_*; with -DBASELINE_AS_CELLPOOL they take
 * the names of cellpool.h, which makes an archive to try the tests with.
 */
#include "baseline.h"

#include <string.h>

#ifdef BASELINE_AS_CELLPOOL
#define NAME(name) cellpool_##name
#else
#define NAME(name) baseline_##name
#endif

#define PAIR 0u
#define FREE 4u
#define POINT 5u
/* The states of marked cells. */
#define MARKED 3u
#define MARKED_POINT 6u
#define ROOT UINT32_MAX
#define REGISTER(i) words[2 + (i)]

enum { HEADER = 18, CELL = 4, STATE = 0, LEFT = 1, RIGHT = 2, VALUE = 3 };

static size_t cell_at(uint32_t i) { return HEADER + CELL * ((size_t)i - 1); }
static uint32_t *cell(uint32_t *words, uint32_t i) { return words + cell_at(i); }
static const uint32_t *cell_in(const uint32_t *words, uint32_t i) { return words + cell_at(i); }

/* N by the length, 0 where it is refused; up to three words behind the cells are left over. */
static uint32_t cells_of(size_t len) {
    if (len < HEADER + CELL) return 0;
    size_t n = (len - HEADER) / CELL;
    return n <= CELLPOOL_MOST_CELLS ? (uint32_t)n : 0;
}

/* N by the length and word 0, 0 where it is refused. */
static uint32_t size_of(const uint32_t *words, size_t len) {
    uint32_t n = cells_of(len);
    return n != 0 && words[0] == n ? n : 0;
}

static int used(uint32_t state) { return state == PAIR || state == POINT; }

static int valid_link(const uint32_t *words, uint32_t n, uint32_t link) {
    return link == 0 || (link <= n && used(cell_in(words, link)[STATE]));
}

static int well_formed(const uint32_t *words, uint32_t n) {
    for (uint32_t i = 0; i < CELLPOOL_REGISTERS; i++)
        if (!valid_link(words, n, REGISTER(i))) return 0;
    for (uint32_t i = 1; i <= n; i++) {
        const uint32_t *at = cell_in(words, i);
        if (at[STATE] == PAIR) {
            if (!valid_link(words, n, at[LEFT]) || !valid_link(words, n, at[RIGHT])) return 0;
        } else if (at[STATE] != FREE && at[STATE] != POINT) {
            return 0;
        }
    }
    return 1;
}

static int unmarked(const uint32_t *words, uint32_t link) { return link != 0 && used(cell_in(words, link)[STATE]); }

static int is_point(uint32_t state) { return state == POINT || state == MARKED_POINT; }

/* Mark a used cell; it may be marked already. */
static void mark(uint32_t *words, uint32_t link) {
    uint32_t *at = cell(words, link);
    at[STATE] = is_point(at[STATE]) ? MARKED_POINT : MARKED;
}

/* Clear the mark of a cell; answers whether it had one. */
static int clear_mark(uint32_t *at) {
    if (at[STATE] != MARKED && at[STATE] != MARKED_POINT) return 0;
    at[STATE] = at[STATE] == MARKED ? PAIR : POINT;
    return 1;
}

/* The links of a used cell, marked or not: a point is a cell with two nil links. */
typedef struct {
    uint32_t left, right;
} Links;

static inline Links links_of(const uint32_t *words, uint32_t link) {
    const uint32_t *at = cell_in(words, link);
    return is_point(at[STATE]) ? (Links){0, 0} : (Links){at[LEFT], at[RIGHT]};
}

/* The cases of a visit: the five of a pair, by their numbers in source document 000, and that of a point. They are told by the
   mark after the addition and by the state of the next link, which stands in l[p]: the left one at the first visit of a pair,
   the right one at the second. */
typedef enum { RETREAT = 1, FOLLOW_LEFT = 2, PASS_LEFT = 3, FOLLOW_RIGHT = 4, PASS_RIGHT = 5, AT_POINT = 6, CASES = 6 } Case;

/* The cell in hand p, its predecessor q, and the words of p: its mark m and what stands in its links l and r. */
typedef struct {
    uint32_t p, q, m, l, r;
} Hand;

/* The case of a visit. At the third one nothing of l[p] is read: it may be the virtual root. */
static inline Case case_of(uint32_t *words, Hand hand) {
    if (hand.m == 1) return unmarked(words, hand.l) ? FOLLOW_LEFT : PASS_LEFT;
    if (hand.m == 2) return unmarked(words, hand.l) ? FOLLOW_RIGHT : PASS_RIGHT;
    return hand.m == MARKED_POINT ? AT_POINT : RETREAT;
}

/* What a case does: in 1, 2 and 4 p, l[p], r[p], q become l[p], r[p], q, p; in 3 and 5 l[p], r[p], q become r[p], q, l[p]; at a
   point p, q become q, p. Where another cell comes in hand, m, l and r are still those of the one that was. */
static inline Hand exchange(Case which, Hand hand) {
    Hand to = hand;
    switch (which) {
    case RETREAT: /* 1. Back to the predecessor, with both links as they were. */
        to.p = hand.l, to.l = hand.r, to.r = hand.q, to.q = hand.p;
        break;
    case FOLLOW_LEFT: /* 2. To the left cell, which is unmarked. */
        to.p = hand.l, to.l = hand.r, to.r = hand.q, to.q = hand.p;
        break;
    case PASS_LEFT: /* 3. The left link is marked or nil: the cell stays in hand. */
        to.l = hand.r, to.r = hand.q, to.q = hand.l;
        break;
    case FOLLOW_RIGHT: /* 4. To the right cell, which is unmarked. */
        to.p = hand.l, to.l = hand.r, to.r = hand.q, to.q = hand.p;
        break;
    case PASS_RIGHT: /* 5. The right link is marked or nil: the cell stays in hand. */
        to.l = hand.r, to.r = hand.q, to.q = hand.l;
        break;
    case AT_POINT: /* A point: back to the predecessor, and its numbers stay. */
        to.p = hand.q, to.q = hand.p;
        break;
    }
    return to;
}

/* One visit: the mark of a pair goes from 0 to 3, that of a point from 5 to 6. It is written before the next link is looked at,
   which may lead to the cell itself. */
static inline Hand visit(uint32_t *words, Hand hand, Case *which) {
    cell(words, hand.p)[STATE] = ++hand.m;
    *which = case_of(words, hand);
    return exchange(*which, hand);
}

static inline Hand take(const uint32_t *words, uint32_t p, uint32_t q) {
    const uint32_t *at = cell_in(words, p);
    return (Hand){.p = p, .q = q, .m = at[STATE], .l = at[LEFT], .r = at[RIGHT]};
}

/* Mark by link reversal from every register; answers the visits. A pair is visited again while it stays in hand, so that its
   links are read and written once for up to three visits. */
static uint32_t mark_by_reversal(uint32_t *words) {
    uint32_t visits = 0;
    Case which;
    for (uint32_t i = 0; i < CELLPOOL_REGISTERS; i++) {
        if (!unmarked(words, REGISTER(i))) continue;
        uint32_t p = REGISTER(i), q = ROOT;
        while (p != ROOT) {
            uint32_t *at = cell(words, p);
            Hand hand = visit(words, take(words, p, q), &which);
            visits++;
            if (hand.p == p) {
                hand = visit(words, hand, &which);
                visits++;
            }
            if (hand.p == p) {
                hand = visit(words, hand, &which);
                visits++;
            }
            at[LEFT] = hand.l;
            at[RIGHT] = hand.r;
            p = hand.p;
            q = hand.q;
        }
    }
    return visits;
}

/* Mark from an entry for as long as one way alone goes on: one link is unmarked, or two equal ones. Answers the cell where two
   different links are unmarked, and 0 where both are marked or nil. */
static uint32_t walk(uint32_t *words, uint32_t node) {
    for (;;) {
        Links links = links_of(words, node);
        uint32_t left = links.left, right = links.right;
        if (unmarked(words, left)) {
            if (left != right && unmarked(words, right)) return node;
            node = left;
        } else if (unmarked(words, right)) {
            node = right;
        } else {
            return 0;
        }
        mark(words, node);
    }
}

/* Walk from every entry, from top to bottom, and close the gaps of those that are dropped. Answers how many are left. */
static size_t check(uint32_t *words, uint32_t *stack, size_t height) {
    size_t kept = 0;
    for (size_t i = height; i-- > 0;) stack[i] = walk(words, stack[i]);
    for (size_t i = 0; i < height; i++)
        if (stack[i] != 0) stack[kept++] = stack[i];
    return kept;
}

/* Answers whether the stack was enough. Where it is full, its entries are checked, and *checks counts that; or, without checks,
   that is the end. */
static inline int mark_with_stack(uint32_t *words, uint32_t *stack, size_t stack_len, int checked, uint32_t *checks) {
    for (uint32_t i = 0; i < CELLPOOL_REGISTERS; i++) {
        uint32_t node = REGISTER(i);
        size_t height = 0;
        if (!unmarked(words, node)) continue;
        mark(words, node);
        for (;;) {
            Links links = links_of(words, node);
            uint32_t left = links.left, right = links.right;
            if (unmarked(words, left)) {
                /* Two equal unmarked links are one. */
                if (right != left && unmarked(words, right)) {
                    mark(words, right);
                    if (height == stack_len) {
                        if (!checked) return 0;
                        mark(words, left); /* a check finds both links marked */
                        ++*checks;
                        height = check(words, stack, height);
                        if (height == stack_len) return 0;
                    }
                    stack[height++] = right;
                }
                node = left;
            } else if (unmarked(words, right)) {
                node = right;
            } else if (height > 0) {
                node = stack[--height];
                continue;
            } else {
                break;
            }
            mark(words, node);
        }
    }
    return 1;
}

/* Answers the visits: three of a pair, one of a point. */
static uint32_t mark_recursively(uint32_t *words, uint32_t link) {
    Links links = links_of(words, link);
    uint32_t visits = is_point(cell(words, link)[STATE]) ? 1 : 3;
    mark(words, link);
    if (unmarked(words, links.left)) visits += mark_recursively(words, links.left);
    if (unmarked(words, links.right)) visits += mark_recursively(words, links.right);
    return visits;
}

static uint32_t sweep(uint32_t *words, uint32_t n) {
    uint32_t kept = 0, next = 0;
    for (uint32_t i = n; i >= 1; i--) {
        uint32_t *at = cell(words, i);
        if (clear_mark(at)) {
            kept++;
        } else {
            at[STATE] = FREE;
            at[LEFT] = next;
            at[RIGHT] = 0;
            at[VALUE] = 0;
            next = i;
        }
    }
    words[1] = next;
    return kept;
}

#ifndef BASELINE_AS_CELLPOOL
uint32_t baseline_mark_by_cases(uint32_t *words, size_t len, uint32_t *times, uint32_t *runs, uint8_t *cases,
                                uint32_t *entered) {
    uint32_t n = size_of(words, len);
    if (n == 0) return CELLPOOL_REFUSED_SIZE;
    if (!well_formed(words, n)) return CELLPOOL_REFUSED_MALFORMED;
    *runs = 0;
    for (int i = 0; i < CASES; i++) times[i] = 0;
    for (uint32_t i = 0; i < CELLPOOL_REGISTERS; i++) {
        if (!unmarked(words, REGISTER(i))) continue;
        uint32_t p = REGISTER(i), q = ROOT;
        ++*runs;
        while (p != ROOT) {
            uint32_t *at = cell(words, p);
            Case which;
            Hand hand = visit(words, take(words, p, q), &which);
            times[which - 1]++;
            *cases++ = (uint8_t)which;
            if (which == FOLLOW_LEFT || which == FOLLOW_RIGHT) *entered++ = hand.p;
            at[LEFT] = hand.l;
            at[RIGHT] = hand.r;
            p = hand.p;
            q = hand.q;
        }
    }
    return CELLPOOL_OK;
}
#endif

uint32_t NAME(fresh)(uint32_t *words, size_t len, uint32_t *cells, uint32_t *leftover) {
    uint32_t n = cells_of(len);
    if (n == 0) return CELLPOOL_REFUSED_SIZE;
    memset(words, 0, CELLPOOL_WORDS(n) * sizeof *words);
    words[0] = n;
    for (uint32_t i = 1; i <= n; i++) cell(words, i)[STATE] = FREE;
    sweep(words, n);
    *cells = n;
    *leftover = (uint32_t)len - CELLPOOL_WORDS(n);
    return CELLPOOL_OK;
}

uint32_t NAME(copy)(uint32_t *words, size_t len, uint32_t r, uint32_t a) {
    uint32_t n = size_of(words, len);
    if (n == 0) return CELLPOOL_REFUSED_SIZE;
    if (r >= CELLPOOL_REGISTERS || a >= CELLPOOL_REGISTERS) return CELLPOOL_REFUSED_REGISTER;
    if (!valid_link(words, n, REGISTER(a))) return CELLPOOL_REFUSED_MALFORMED;
    REGISTER(r) = REGISTER(a);
    return CELLPOOL_OK;
}

uint32_t NAME(clear)(uint32_t *words, size_t len, uint32_t r) {
    if (size_of(words, len) == 0) return CELLPOOL_REFUSED_SIZE;
    if (r >= CELLPOOL_REGISTERS) return CELLPOOL_REFUSED_REGISTER;
    REGISTER(r) = 0;
    return CELLPOOL_OK;
}

/* Register r gets the head cell with this content, where the registers that were to be read are sound. */
static inline uint32_t allocate(uint32_t *words, uint32_t n, uint32_t r, uint32_t state, uint32_t left, uint32_t right,
                                uint32_t value, uint32_t *visits) {
    uint32_t made = 0;
    if (words[1] == 0) {
        if (!well_formed(words, n)) return CELLPOOL_REFUSED_MALFORMED;
        made = mark_by_reversal(words);
        sweep(words, n);
        if (words[1] == 0) return CELLPOOL_REFUSED_FULL;
    }
    uint32_t head = words[1];
    if (head > n) return CELLPOOL_REFUSED_MALFORMED;
    uint32_t *at = cell(words, head);
    if (at[STATE] != FREE || at[LEFT] > n) return CELLPOOL_REFUSED_MALFORMED;
    words[1] = at[LEFT];
    at[STATE] = state;
    at[LEFT] = left;
    at[RIGHT] = right;
    at[VALUE] = value;
    REGISTER(r) = head;
    *visits = made;
    return CELLPOOL_OK;
}

uint32_t NAME(new)(uint32_t *words, size_t len, uint32_t r, uint32_t a, uint32_t b, uint32_t v, uint32_t *visits) {
    uint32_t n = size_of(words, len);
    if (n == 0) return CELLPOOL_REFUSED_SIZE;
    if (r >= CELLPOOL_REGISTERS || a >= CELLPOOL_REGISTERS || b >= CELLPOOL_REGISTERS) return CELLPOOL_REFUSED_REGISTER;
    uint32_t left = REGISTER(a), right = REGISTER(b);
    if (!valid_link(words, n, left) || !valid_link(words, n, right)) return CELLPOOL_REFUSED_MALFORMED;
    return allocate(words, n, r, PAIR, left, right, v, visits);
}

uint32_t NAME(point)(uint32_t *words, size_t len, uint32_t r, uint32_t v, uint32_t x, uint32_t y, uint32_t *visits) {
    uint32_t n = size_of(words, len);
    if (n == 0) return CELLPOOL_REFUSED_SIZE;
    if (r >= CELLPOOL_REGISTERS) return CELLPOOL_REFUSED_REGISTER;
    return allocate(words, n, r, POINT, x, y, v, visits);
}

static uint32_t follow(uint32_t *words, size_t len, uint32_t r, uint32_t a, int side) {
    uint32_t n = size_of(words, len);
    if (n == 0) return CELLPOOL_REFUSED_SIZE;
    if (r >= CELLPOOL_REGISTERS || a >= CELLPOOL_REGISTERS) return CELLPOOL_REFUSED_REGISTER;
    if (!valid_link(words, n, REGISTER(a))) return CELLPOOL_REFUSED_MALFORMED;
    if (REGISTER(a) == 0) return CELLPOOL_REFUSED_NIL;
    if (cell(words, REGISTER(a))[STATE] != PAIR) return CELLPOOL_REFUSED_KIND;
    uint32_t link = cell(words, REGISTER(a))[side];
    if (!valid_link(words, n, link)) return CELLPOOL_REFUSED_MALFORMED;
    REGISTER(r) = link;
    return CELLPOOL_OK;
}

uint32_t NAME(left)(uint32_t *words, size_t len, uint32_t r, uint32_t a) { return follow(words, len, r, a, LEFT); }
uint32_t NAME(right)(uint32_t *words, size_t len, uint32_t r, uint32_t a) { return follow(words, len, r, a, RIGHT); }

static uint32_t relink(uint32_t *words, size_t len, uint32_t a, uint32_t b, int side) {
    uint32_t n = size_of(words, len);
    if (n == 0) return CELLPOOL_REFUSED_SIZE;
    if (a >= CELLPOOL_REGISTERS || b >= CELLPOOL_REGISTERS) return CELLPOOL_REFUSED_REGISTER;
    uint32_t to = REGISTER(a), link = REGISTER(b);
    if (!valid_link(words, n, to) || !valid_link(words, n, link)) return CELLPOOL_REFUSED_MALFORMED;
    if (to == 0) return CELLPOOL_REFUSED_NIL;
    if (cell(words, to)[STATE] != PAIR) return CELLPOOL_REFUSED_KIND;
    cell(words, to)[side] = link;
    return CELLPOOL_OK;
}

uint32_t NAME(setleft)(uint32_t *words, size_t len, uint32_t a, uint32_t b) { return relink(words, len, a, b, LEFT); }
uint32_t NAME(setright)(uint32_t *words, size_t len, uint32_t a, uint32_t b) { return relink(words, len, a, b, RIGHT); }

/* Does register a hold a cell? */
static uint32_t held(const uint32_t *words, size_t len, uint32_t a) {
    uint32_t n = size_of(words, len);
    if (n == 0) return CELLPOOL_REFUSED_SIZE;
    if (a >= CELLPOOL_REGISTERS) return CELLPOOL_REFUSED_REGISTER;
    if (!valid_link(words, n, REGISTER(a))) return CELLPOOL_REFUSED_MALFORMED;
    return REGISTER(a) == 0 ? CELLPOOL_REFUSED_NIL : CELLPOOL_OK;
}

uint32_t NAME(setvalue)(uint32_t *words, size_t len, uint32_t a, uint32_t v) {
    uint32_t answer = held(words, len, a);
    if (answer == CELLPOOL_OK) cell(words, REGISTER(a))[VALUE] = v;
    return answer;
}

uint32_t NAME(value)(const uint32_t *words, size_t len, uint32_t a, uint32_t *value) {
    uint32_t answer = held(words, len, a);
    if (answer == CELLPOOL_OK) *value = cell_in(words, REGISTER(a))[VALUE];
    return answer;
}

static uint32_t coordinate(const uint32_t *words, size_t len, uint32_t a, int side, uint32_t *number) {
    uint32_t answer = held(words, len, a);
    if (answer != CELLPOOL_OK) return answer;
    if (cell_in(words, REGISTER(a))[STATE] != POINT) return CELLPOOL_REFUSED_KIND;
    *number = cell_in(words, REGISTER(a))[side];
    return CELLPOOL_OK;
}

uint32_t NAME(east)(const uint32_t *words, size_t len, uint32_t a, uint32_t *x) { return coordinate(words, len, a, LEFT, x); }
uint32_t NAME(north)(const uint32_t *words, size_t len, uint32_t a, uint32_t *y) { return coordinate(words, len, a, RIGHT, y); }

uint32_t NAME(same)(const uint32_t *words, size_t len, uint32_t a, uint32_t b, uint32_t *same) {
    uint32_t n = size_of(words, len);
    if (n == 0) return CELLPOOL_REFUSED_SIZE;
    if (a >= CELLPOOL_REGISTERS || b >= CELLPOOL_REGISTERS) return CELLPOOL_REFUSED_REGISTER;
    if (!valid_link(words, n, REGISTER(a)) || !valid_link(words, n, REGISTER(b))) return CELLPOOL_REFUSED_MALFORMED;
    *same = REGISTER(a) == REGISTER(b);
    return CELLPOOL_OK;
}

uint32_t NAME(collect)(uint32_t *words, size_t len, uint32_t *kept, uint32_t *visits) {
    uint32_t n = size_of(words, len);
    if (n == 0) return CELLPOOL_REFUSED_SIZE;
    if (!well_formed(words, n)) return CELLPOOL_REFUSED_MALFORMED;
    *visits = mark_by_reversal(words);
    *kept = sweep(words, n);
    return CELLPOOL_OK;
}

static uint32_t add(uint32_t sum, uint32_t more) { return more > UINT32_MAX - sum ? UINT32_MAX : sum + more; }

uint32_t NAME(collect_tally)(uint32_t *words, size_t len, uint32_t *collections, uint32_t *total_visits,
                             uint32_t *kept, uint32_t *visits) {
    uint32_t answer = NAME(collect)(words, len, kept, visits);
    if (answer == CELLPOOL_OK) {
        *collections = add(*collections, 1);
        *total_visits = add(*total_visits, *visits);
    }
    return answer;
}

/* Collect with a lent stack, with checks or without; the numbers are written where it is accepted. */
static inline uint32_t collect_with_stack(uint32_t *words, size_t len, uint32_t *stack, size_t stack_len, int checked,
                                          uint32_t *kept, uint32_t *enough, uint32_t *checks) {
    uint32_t n = size_of(words, len), count = 0;
    if (n == 0) return CELLPOOL_REFUSED_SIZE;
    if (!well_formed(words, n)) return CELLPOOL_REFUSED_MALFORMED;
    *enough = (uint32_t)mark_with_stack(words, stack, stack_len, checked, &count);
    if (!*enough) {
        for (uint32_t i = 1; i <= n; i++) clear_mark(cell(words, i));
        mark_by_reversal(words);
    }
    memset(stack, 0, stack_len * sizeof *stack);
    *kept = sweep(words, n);
    *checks = count;
    return CELLPOOL_OK;
}

uint32_t NAME(collect_stack)(uint32_t *words, size_t len, uint32_t *stack, size_t stack_len, uint32_t *kept,
                             uint32_t *enough, uint32_t *checks) {
    return collect_with_stack(words, len, stack, stack_len, 1, kept, enough, checks);
}

#ifndef BASELINE_AS_CELLPOOL
uint32_t baseline_collect_stack_unchecked(uint32_t *words, size_t len, uint32_t *stack, size_t stack_len, uint32_t *kept,
                                          uint32_t *enough) {
    uint32_t none;
    return collect_with_stack(words, len, stack, stack_len, 0, kept, enough, &none);
}
#endif

uint32_t NAME(worst_case)(uint32_t *words, size_t len, uint32_t *entries) {
    uint32_t n = cells_of(len);
    if (n == 0) return CELLPOOL_REFUSED_SIZE;
    memset(words, 0, CELLPOOL_WORDS(n) * sizeof *words);
    words[0] = n;
    REGISTER(0) = 1;
    for (uint32_t i = 1; i < n; i += 2) {
        cell(words, i)[LEFT] = i + 2 <= n ? i + 2 : 0;
        cell(words, i)[RIGHT] = i + 1;
    }
    *entries = (n - 1) / 2;
    return CELLPOOL_OK;
}

uint32_t NAME(collect_recursive)(uint32_t *words, size_t len, uint32_t *kept, uint32_t *visits) {
    uint32_t n = size_of(words, len);
    if (n == 0) return CELLPOOL_REFUSED_SIZE;
    if (n > CELLPOOL_MOST_RECURSIVE) return CELLPOOL_REFUSED_TOO_LARGE;
    if (!well_formed(words, n)) return CELLPOOL_REFUSED_MALFORMED;
    uint32_t made = 0;
    for (uint32_t i = 0; i < CELLPOOL_REGISTERS; i++)
        if (unmarked(words, REGISTER(i))) made += mark_recursively(words, REGISTER(i));
    *kept = sweep(words, n);
    *visits = made;
    return CELLPOOL_OK;
}

static size_t bytes_of(uint32_t number) {
    size_t count = 1;
    while (number > 0x7F) {
        number >>= 7;
        count++;
    }
    return count;
}

static uint8_t *write_number(uint8_t *out, uint32_t number) {
    while (number > 0x7F) {
        *out++ = (uint8_t)(number | 0x80);
        number >>= 7;
    }
    *out++ = (uint8_t)number;
    return out;
}

/* Number the reached cells depth first; order also holds the pending cells, from its end. Answers their count. */
static uint32_t number_cells(const uint32_t *words, uint32_t n, uint32_t *numbers, uint32_t *order) {
    uint32_t count = 0;
    for (uint32_t i = 0; i < CELLPOOL_REGISTERS; i++) {
        uint32_t node = REGISTER(i), pending = n;
        for (;;) {
            if (node != 0 && numbers[node - 1] == 0) {
                numbers[node - 1] = ++count;
                order[--pending] = node;
                node = links_of(words, node).left;
            } else if (pending < n) {
                node = links_of(words, order[pending++]).right;
            } else {
                break;
            }
        }
    }
    for (uint32_t i = 1; i <= n; i++)
        if (numbers[i - 1] != 0) order[numbers[i - 1] - 1] = i;
    return count;
}

uint32_t NAME(save)(const uint32_t *words, size_t len, uint32_t *scratch, size_t scratch_len, uint8_t *out,
                    size_t out_len, size_t *bytes) {
    uint32_t n = size_of(words, len), answer = CELLPOOL_REFUSED_NO_ROOM;
    if (n == 0) return CELLPOOL_REFUSED_SIZE;
    if (scratch_len < 2 * (size_t)n) return CELLPOOL_REFUSED_NO_ROOM;
    if (!well_formed(words, n)) return CELLPOOL_REFUSED_MALFORMED;
    memset(scratch, 0, scratch_len * sizeof *scratch);
    uint32_t *numbers = scratch, *order = scratch + n;
    uint32_t k = number_cells(words, n, numbers, order);
    size_t size = bytes_of(k);
#define RENUMBER(link) ((link) == 0 ? 0 : numbers[(link) - 1])
/* A point's x and y are no links. */
#define WRITTEN(side) (at[STATE] == POINT ? at[side] : RENUMBER(at[side]))
    for (uint32_t i = 0; i < CELLPOOL_REGISTERS; i++) size += bytes_of(RENUMBER(REGISTER(i)));
    for (uint32_t i = 0; i < k; i++) {
        const uint32_t *at = cell_in(words, order[i]);
        size += 1 + bytes_of(WRITTEN(LEFT)) + bytes_of(WRITTEN(RIGHT)) + bytes_of(at[VALUE]);
    }
    if (size <= out_len) {
        out = write_number(out, k);
        for (uint32_t i = 0; i < CELLPOOL_REGISTERS; i++) out = write_number(out, RENUMBER(REGISTER(i)));
        for (uint32_t i = 0; i < k; i++) {
            const uint32_t *at = cell_in(words, order[i]);
            out = write_number(out, at[STATE] == POINT ? 1 : 0);
            out = write_number(out, WRITTEN(LEFT));
            out = write_number(out, WRITTEN(RIGHT));
            out = write_number(out, at[VALUE]);
        }
        *bytes = size;
        answer = CELLPOOL_OK;
    }
#undef WRITTEN
#undef RENUMBER
    memset(scratch, 0, 2 * (size_t)n * sizeof *scratch);
    return answer;
}

/* Read one number at *at and advance; a padded one is read and then refused. */
static uint32_t read_number(const uint8_t *bytes, size_t len, size_t *at, uint32_t *number) {
    uint32_t sum = 0;
    for (unsigned place = 0;; place++) {
        if (*at == len) return CELLPOOL_REFUSED_TRUNCATED;
        uint8_t byte = bytes[(*at)++];
        if (place == 4 && byte > 0x0F) return CELLPOOL_REFUSED_OUT_OF_RANGE;
        sum |= (uint32_t)(byte & 0x7F) << (7 * place);
        if (byte < 0x80) {
            *number = sum;
            return place > 0 && byte == 0 ? CELLPOOL_REFUSED_PADDED : CELLPOOL_OK;
        }
    }
}

/* A link, which is at most K, or an x or y, which is any number. */
static uint32_t read_link(const uint8_t *bytes, size_t len, size_t *at, uint32_t most) {
    uint32_t link, answer = read_number(bytes, len, at, &link);
    return answer == CELLPOOL_OK && link > most ? CELLPOOL_REFUSED_LINK_RANGE : answer;
}

static uint32_t validate(const uint8_t *bytes, size_t len, uint32_t n, size_t *end) {
    size_t at = 0;
    uint32_t k, kind, value, answer = read_number(bytes, len, &at, &k);
    if (answer != CELLPOOL_OK) return answer;
    if (k > n) return CELLPOOL_REFUSED_TOO_MANY_CELLS;
    for (uint32_t i = 0; i < CELLPOOL_REGISTERS; i++)
        if ((answer = read_link(bytes, len, &at, k)) != CELLPOOL_OK) return answer;
    for (uint32_t i = 0; i < k; i++) {
        if ((answer = read_number(bytes, len, &at, &kind)) != CELLPOOL_OK) return answer;
        if (kind > 1) return CELLPOOL_REFUSED_KIND_NUMBER;
        uint32_t most = kind == 1 ? UINT32_MAX : k;
        if ((answer = read_link(bytes, len, &at, most)) != CELLPOOL_OK) return answer;
        if ((answer = read_link(bytes, len, &at, most)) != CELLPOOL_OK) return answer;
        if ((answer = read_number(bytes, len, &at, &value)) != CELLPOOL_OK) return answer;
    }
    *end = at;
    return CELLPOOL_OK;
}

uint32_t NAME(load)(uint32_t *words, size_t len, const uint8_t *bytes, size_t bytes_len, size_t *rest) {
    uint32_t n = cells_of(len), k = 0, kind = 0, answer;
    size_t at = 0;
    *rest = bytes_len;
    if (n == 0) return CELLPOOL_REFUSED_SIZE;
    answer = validate(bytes, bytes_len, n, rest);
    if (answer != CELLPOOL_OK) return answer;
    words[0] = n;
    read_number(bytes, bytes_len, &at, &k);
    for (uint32_t i = 0; i < CELLPOOL_REGISTERS; i++) read_number(bytes, bytes_len, &at, &REGISTER(i));
    for (uint32_t i = 1; i <= n; i++) {
        uint32_t *to = cell(words, i);
        to[STATE] = FREE;
        if (i > k) continue;
        read_number(bytes, bytes_len, &at, &kind);
        to[STATE] = kind == 1 ? MARKED_POINT : MARKED;
        read_number(bytes, bytes_len, &at, &to[LEFT]);
        read_number(bytes, bytes_len, &at, &to[RIGHT]);
        read_number(bytes, bytes_len, &at, &to[VALUE]);
    }
    sweep(words, n);
    return CELLPOOL_OK;
}

uint32_t NAME(check_image)(const uint8_t *bytes, size_t bytes_len, uint32_t n) {
    size_t end;
    if (n < 1 || n > CELLPOOL_MOST_CELLS) return CELLPOOL_REFUSED_SIZE;
    return validate(bytes, bytes_len, n, &end);
}

uint32_t NAME(occupancy)(uint32_t kept, uint32_t n, uint32_t *percent) {
    if (n < 1 || n > CELLPOOL_MOST_CELLS || kept > n) return CELLPOOL_REFUSED_SIZE;
    /* 100 * kept / n and 1 / 2 more, rounded down, is the nearest whole number, and of an exact half the one above. */
    uint32_t twice = 200 * kept + n, nearest = twice / (2 * n);
    if (twice % (2 * n) == 0) nearest -= nearest % 2; /* of a half the even one */
    *percent = nearest;
    return CELLPOOL_OK;
}
