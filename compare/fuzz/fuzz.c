/*
 * A fuzz target for the functions of cellpool.h, for libFuzzer (LLVMFuzzerTestOneInput).
 *
 * An input is the words of a pool and a list of calls of any function. Every call is made by the library and by the plain C
 * version (../baseline/baseline.c), on equal blocks: answers, results, and every word and byte of every block have to be the
 * same. The branches of the plain C version, which is compiled with this file, guide the fuzzer.
 *
 * The blocks stand against pages that may be neither read nor written, so that also an archive compiled without a
 * sanitizer is caught at the first access outside. The library is compared with itself too: a refusal is one that the
 * header lists with its function and changes nothing but what the header names; refusal 1 comes exactly where the
 * length is that of no pool or, where the function asks for it, word 0 is not its number of cells, or where the
 * number of cells that is given is that of no pool or less than what is kept; refusal 13 comes exactly where the cell is
 * of the other kind and there is nothing to refuse before it; a new cell has the content that was given, and east and
 * north are the words of a point; a percent is the nearest whole one, and for a half the even one; the words left over
 * stay; the forms of collect agree, leave every kept cell as it was, and make three visits of a pair and one of a point; a
 * stack makes no check exactly from one length on; the worst case for the stack takes just as many words as are answered,
 * and with fewer a check for each push that finds them full; an image that was saved loads, whatever is left over, with
 * the pairs and points that are reached, and saves as the same bytes, while every cut of it is refused; a pool, what a
 * collection leaves of it and its loaded image have the same image, and answer a list of reads alike; and any image that
 * loads is saved as the bytes that were read exactly if its cells are numbered in the order of the visits. The cases of
 * the plain C version's visits add up to the pairs and points that the library keeps.
 *
 * With -DSTANDALONE a main is added that runs pseudo-random inputs: fuzz [inputs [seed]].
 */
#define _DEFAULT_SOURCE
#include "../baseline/baseline.h"

#include <stdio.h>
#include <stdlib.h>
#include <string.h>
#include <sys/mman.h>

int LLVMFuzzerTestOneInput(const uint8_t *data, size_t size);

#define DEMAND(condition) ((condition) ? (void)0 : fail(#condition, __LINE__))

static const char *called = "no function";

static void fail(const char *condition, int line) {
    fprintf(stderr, "fuzz.c:%d: %s: not so: %s\n", line, called, condition);
    abort();
}

/* The blocks that calls are lent, for either side the same bytes, and their content before a call. The stack is also the
   scratch of save. */
enum { LIBRARY, PLAIN, SIDES };
enum { WORDS, STACK, OUT, IMAGE, BLOCKS };
enum { ROOM = 128 * 1024, GUARD = 1024 * 1024 };

static struct {
    uint8_t *room[SIDES], *at[SIDES];
    size_t bytes;
    uint8_t before[ROOM];
} blocks[BLOCKS];

static int at_end;

/* Lend so many bytes, with a guard directly behind them or directly before them. Answers the library's block. */
static void *lend(int block, size_t bytes) {
    DEMAND(bytes <= ROOM);
    for (int side = 0; side < SIDES; side++) {
        if (blocks[block].room[side] == NULL) {
            uint8_t *all = mmap(NULL, ROOM + 2 * GUARD, PROT_NONE, MAP_PRIVATE | MAP_ANONYMOUS, -1, 0);
            DEMAND(all != MAP_FAILED && mprotect(all + GUARD, ROOM, PROT_READ | PROT_WRITE) == 0);
            blocks[block].room[side] = all + GUARD;
        }
        blocks[block].at[side] = blocks[block].room[side] + (at_end ? ROOM - bytes : 0);
    }
    blocks[block].bytes = bytes;
    return blocks[block].at[LIBRARY];
}

static uint32_t *words_of(int side) { return (uint32_t *)blocks[WORDS].at[side]; }

/* The pool's cells, by its length, and the words left over behind them. */
static uint32_t cells, leftover;

enum {
    COPY, CLEAR, NEW, POINT, LEFT, RIGHT, SETLEFT, SETRIGHT, SETVALUE, VALUE, EAST, NORTH, SAME, COLLECT, CALLS,
    FRESH = CALLS, TALLY, STACKED, WORST, RECURSIVE, SAVE, LOAD, CHECK, OCCUPANCY, FUNCTIONS
};

/* Every function: the refusals that the header lists with it, and the blocks that it is lent. */
#define BIT(i) (1u << (i))
static const struct {
    const char *name;
    uint32_t refusals, lent;
} functions[FUNCTIONS] = {
    [COPY] = {"copy", BIT(1) | BIT(2) | BIT(3), BIT(WORDS)},
    [CLEAR] = {"clear", BIT(1) | BIT(2), BIT(WORDS)},
    [NEW] = {"new", BIT(1) | BIT(2) | BIT(3) | BIT(5), BIT(WORDS)},
    [POINT] = {"point", BIT(1) | BIT(2) | BIT(3) | BIT(5), BIT(WORDS)},
    [LEFT] = {"left", BIT(1) | BIT(2) | BIT(3) | BIT(4) | BIT(13), BIT(WORDS)},
    [RIGHT] = {"right", BIT(1) | BIT(2) | BIT(3) | BIT(4) | BIT(13), BIT(WORDS)},
    [SETLEFT] = {"setleft", BIT(1) | BIT(2) | BIT(3) | BIT(4) | BIT(13), BIT(WORDS)},
    [SETRIGHT] = {"setright", BIT(1) | BIT(2) | BIT(3) | BIT(4) | BIT(13), BIT(WORDS)},
    [SETVALUE] = {"setvalue", BIT(1) | BIT(2) | BIT(3) | BIT(4), BIT(WORDS)},
    [VALUE] = {"value", BIT(1) | BIT(2) | BIT(3) | BIT(4), BIT(WORDS)},
    [EAST] = {"east", BIT(1) | BIT(2) | BIT(3) | BIT(4) | BIT(13), BIT(WORDS)},
    [NORTH] = {"north", BIT(1) | BIT(2) | BIT(3) | BIT(4) | BIT(13), BIT(WORDS)},
    [SAME] = {"same", BIT(1) | BIT(2) | BIT(3), BIT(WORDS)},
    [COLLECT] = {"collect", BIT(1) | BIT(3), BIT(WORDS)},
    [FRESH] = {"fresh", BIT(1), BIT(WORDS)},
    [TALLY] = {"collect_tally", BIT(1) | BIT(3), BIT(WORDS)},
    [STACKED] = {"collect_stack", BIT(1) | BIT(3), BIT(WORDS) | BIT(STACK)},
    [WORST] = {"worst_case", BIT(1), BIT(WORDS)},
    [RECURSIVE] = {"collect_recursive", BIT(1) | BIT(3) | BIT(11), BIT(WORDS)},
    [SAVE] = {"save", BIT(1) | BIT(3) | BIT(10), BIT(WORDS) | BIT(STACK) | BIT(OUT)},
    [LOAD] = {"load", BIT(1) | BIT(6) | BIT(7) | BIT(8) | BIT(9) | BIT(12) | BIT(14), BIT(WORDS) | BIT(IMAGE)},
    [CHECK] = {"check_image", BIT(1) | BIT(6) | BIT(7) | BIT(8) | BIT(9) | BIT(12) | BIT(14), BIT(IMAGE)},
    [OCCUPANCY] = {"occupancy", BIT(1), 0},
};

typedef struct {
    int function;
    /* Of a point, a and b are x and y; of a tally, what it counts from; of check_image and occupancy, a is n. */
    uint32_t r, a, b, v;
} Call;

/* Numbers for results: the odd ones are lent, and the others must stay. */
#define UNSET 0xA5A51234u
typedef struct {
    uint32_t number[9];
    size_t size[3];
} Results;

#define BY(side, name) ((side) == LIBRARY ? cellpool_##name : baseline_##name)

static uint32_t run(int side, const Call *call, Results *results) {
    uint32_t *words = words_of(side), *stack = (uint32_t *)blocks[STACK].at[side];
    uint8_t *out = blocks[OUT].at[side], *image = blocks[IMAGE].at[side];
    size_t len = blocks[WORDS].bytes / sizeof *words, stack_len = blocks[STACK].bytes / sizeof *stack;
    size_t out_len = blocks[OUT].bytes, image_len = blocks[IMAGE].bytes;
    uint32_t r = call->r, a = call->a, b = call->b, v = call->v, *number = results->number;
    switch (call->function) {
    case COPY: return BY(side, copy)(words, len, r, a);
    case CLEAR: return BY(side, clear)(words, len, r);
    case NEW: return BY(side, new)(words, len, r, a, b, v, number + 1);
    case POINT: return BY(side, point)(words, len, r, v, a, b, number + 1);
    case LEFT: return BY(side, left)(words, len, r, a);
    case RIGHT: return BY(side, right)(words, len, r, a);
    case SETLEFT: return BY(side, setleft)(words, len, a, b);
    case SETRIGHT: return BY(side, setright)(words, len, a, b);
    case SETVALUE: return BY(side, setvalue)(words, len, a, v);
    case VALUE: return BY(side, value)(words, len, a, number + 1);
    case EAST: return BY(side, east)(words, len, a, number + 1);
    case NORTH: return BY(side, north)(words, len, a, number + 1);
    case SAME: return BY(side, same)(words, len, a, b, number + 1);
    case COLLECT: return BY(side, collect)(words, len, number + 1, number + 3);
    case FRESH: return BY(side, fresh)(words, len, number + 1, number + 3);
    case TALLY: return BY(side, collect_tally)(words, len, number + 5, number + 7, number + 1, number + 3);
    case STACKED: return BY(side, collect_stack)(words, len, stack, stack_len, number + 1, number + 3, number + 5);
    case WORST: return BY(side, worst_case)(words, len, number + 1);
    case RECURSIVE: return BY(side, collect_recursive)(words, len, number + 1, number + 3);
    case SAVE: return BY(side, save)(words, len, stack, stack_len, out, out_len, results->size + 1);
    case LOAD: return BY(side, load)(words, len, image, image_len, results->size + 1);
    case CHECK: return BY(side, check_image)(image, image_len, a);
    default: return BY(side, occupancy)(v, a, number + 1);
    }
}

/* Before a call: is the length that of a pool, and word 0 its number of cells where the function asks for that? Where
   it takes no words: is n that of a pool, and not less than what is kept? */
static int size_fits(const Call *call) {
    int function = call->function, by_length = function == FRESH || function == WORST || function == LOAD;
    if (function == CHECK) return call->a >= 1 && call->a <= CELLPOOL_MOST_CELLS;
    if (function == OCCUPANCY) return call->a >= 1 && call->a <= CELLPOOL_MOST_CELLS && call->v <= call->a;
    return cells >= 1 && cells <= CELLPOOL_MOST_CELLS && (by_length || words_of(LIBRARY)[0] == cells);
}

/* The four words of a cell. */
static const uint32_t *cell_in(const uint32_t *words, uint32_t i) { return words + CELLPOOL_WORDS((size_t)i - 1); }

static int is_used(const uint32_t *words, uint32_t i) { return cell_in(words, i)[0] == 0 || cell_in(words, i)[0] == 5; }

/* Before a call: does it fit and name registers that are there, are those that it reads sound, does a hold a cell, and is that
   of the other kind than the call needs? */
static int other_kind(const Call *call, int fits) {
    const uint32_t *words = words_of(LIBRARY);
    int function = call->function, sets = function == SETLEFT || function == SETRIGHT;
    int of_points = function == EAST || function == NORTH, follows = function == LEFT || function == RIGHT;
    if (!fits || !(sets || of_points || follows) || call->a >= 16) return 0;
    if ((follows && call->r >= 16) || (sets && call->b >= 16)) return 0;
    uint32_t held = words[2 + call->a], other = sets ? words[2 + call->b] : 0;
    if (held == 0 || held > cells || !is_used(words, held)) return 0;
    if (other != 0 && (other > cells || !is_used(words, other))) return 0;
    return (cell_in(words, held)[0] == 5) != of_points;
}

/* Make a call on both sides, from the library's blocks as they are, and compare. */
static uint32_t make(Call call, Results *results) {
    Results start, found[SIDES];
    uint32_t answer[SIDES], lent = functions[call.function].lent;
    size_t tail = blocks[WORDS].bytes - leftover * sizeof(uint32_t);
    int fits = size_fits(&call), of_other_kind = other_kind(&call, fits);
    called = functions[call.function].name;
    for (int i = 0; i < 9; i++) start.number[i] = UNSET;
    for (int i = 0; i < 3; i++) start.size[i] = UNSET;
    if (call.function == TALLY) {
        start.number[5] = call.a;
        start.number[7] = call.b;
    }
    for (int block = 0; block < BLOCKS; block++) {
        if ((lent & BIT(block)) == 0) continue;
        memcpy(blocks[block].before, blocks[block].at[LIBRARY], blocks[block].bytes);
        memcpy(blocks[block].at[PLAIN], blocks[block].at[LIBRARY], blocks[block].bytes);
    }
    for (int side = 0; side < SIDES; side++) {
        found[side] = start;
        answer[side] = run(side, &call, &found[side]);
    }
    DEMAND(answer[LIBRARY] == answer[PLAIN]);
    DEMAND(memcmp(&found[LIBRARY], &found[PLAIN], sizeof start) == 0);
    for (int block = 0; block < BLOCKS; block++) {
        if ((lent & BIT(block)) == 0) continue;
        DEMAND(memcmp(blocks[block].at[LIBRARY], blocks[block].at[PLAIN], blocks[block].bytes) == 0);
    }
    DEMAND((answer[LIBRARY] == 1) == !fits);
    DEMAND((answer[LIBRARY] == 13) == of_other_kind);
    if (lent & BIT(WORDS))
        DEMAND(memcmp(blocks[WORDS].at[LIBRARY] + tail, blocks[WORDS].before + tail, blocks[WORDS].bytes - tail) == 0);
    if (answer[LIBRARY] != 0) {
        /* Refused, save clears its scratch where only the output is too short, and load answers where the bytes end. */
        int cleared = call.function == SAVE && answer[LIBRARY] == 10 && blocks[STACK].bytes >= 8 * (size_t)cells;
        DEMAND(answer[LIBRARY] < 32 && (functions[call.function].refusals & BIT(answer[LIBRARY])) != 0);
        if (call.function == LOAD) start.size[1] = blocks[IMAGE].bytes;
        DEMAND(memcmp(&found[LIBRARY], &start, sizeof start) == 0);
        for (int block = 0; block < BLOCKS; block++) {
            if ((lent & BIT(block)) == 0 || (block == STACK && cleared)) continue;
            DEMAND(memcmp(blocks[block].at[LIBRARY], blocks[block].before, blocks[block].bytes) == 0);
        }
    }
    if (results != NULL) *results = found[LIBRARY];
    return answer[LIBRARY];
}

static uint32_t make_plainly(int function, Results *results) {
    Call call = {function, 0, 0, 0, 0};
    return make(call, results);
}

/* The input, read byte by byte; 0 behind its end. */
typedef struct {
    const uint8_t *data;
    size_t size, at;
} Input;

static uint8_t byte_of(Input *input) { return input->at < input->size ? input->data[input->at++] : 0; }

/* Mostly a number up to n + 1, else any. */
static uint32_t number_of(Input *input, uint32_t n) {
    uint32_t first = byte_of(input);
    if (first < 0xF8) return first % (n + 2);
    uint32_t number = 0;
    for (int i = 0; i < 4; i++) number = number << 8 | byte_of(input);
    return number;
}

/* One of so many places, by two bytes. */
static size_t place_of(Input *input, size_t places) {
    size_t low = byte_of(input), high = byte_of(input);
    return (low | high << 8) % places;
}

/* Any number up to n + 1. */
static uint32_t any_number_of(Input *input, uint32_t n) { return (uint32_t)place_of(input, (size_t)n + 2); }

/* The first used cell from this link on, or the first pair; nil where there is none, and for nil. */
static uint32_t valid(const uint32_t *words, uint32_t link, int pair) {
    if (link == 0) return 0;
    while (link <= cells && !(pair ? cell_in(words, link)[0] == 0 : is_used(words, link))) link++;
    return link <= cells ? link : 0;
}

/* The bits of an input's first byte: blocks stand before their guards or behind them; the words are a well-formed pool; the stack
   marker has much to push in it: register 0 holds the first pair, and the others are nil; each left link leads to the next pair;
   and by two bits how many points there are: none, where the lower one is 0, some, or as many as pairs. */
enum { AT_END = 1, MENDED = 2, ONE_REGISTER = 4, CHAINED = 8, POINTS = 16, MANY_POINTS = 32 };

/* Make the words a well-formed pool. */
static void mend(uint32_t *words, uint8_t mode) {
    words[0] = cells;
    for (size_t i = 18; i < CELLPOOL_WORDS((size_t)cells); i += 4)
        if (words[i] != 0 && words[i] != 5) words[i] = 4;
    for (size_t i = 2; i < 18; i++)
        words[i] = mode & ONE_REGISTER ? valid(words, i == 2, 1) : valid(words, words[i], 0);
    for (size_t i = 18; i < CELLPOOL_WORDS((size_t)cells); i += 4) {
        if (words[i] != 0) continue;
        words[i + 1] = mode & CHAINED ? valid(words, (uint32_t)(i - 18) / 4 + 2, 1) : valid(words, words[i + 1], 0);
        words[i + 2] = valid(words, words[i + 2], 0);
    }
}

/* Words of any length, content by the input. */
static void lend_pool(Input *input, uint8_t mode) {
    uint8_t kind = byte_of(input);
    if (kind < 0xF0) cells = 1 + kind % 40u;
    else if (kind < 0xF4) cells = kind % 4u;
    else if (kind < 0xF8) cells = number_of(input, 4001) % 4003u;
    else cells = 4000u - 3u + kind % 8u;
    leftover = byte_of(input) % 4u;
    size_t len = CELLPOOL_WORDS(cells) + leftover;
    uint32_t *words = lend(WORDS, len * sizeof *words);
    for (size_t i = 0; i < len; i++) {
        uint32_t number = number_of(input, cells);
        /* States are mostly 0, 4 or 5. */
        static const uint32_t states[3][7] = {{0, 0, 0, 0, 0, 4, 4}, {0, 0, 0, 0, 5, 4, 4}, {0, 0, 0, 5, 5, 5, 4}};
        if (i >= 18 && i % 4 == 2 && number <= cells + 1 && number % 8 < 7)
            number = states[!(mode & POINTS) ? 0 : mode & MANY_POINTS ? 2 : 1][number % 8];
        words[i] = number;
    }
    if (byte_of(input) % 8 != 0) words[0] = cells;
    if (mode & MENDED) mend(words, mode);
}

/* Lend so many elements, at most as there is room for, all bytes with this content. */
static void *lend_filled(int block, size_t count, size_t element, int content) {
    if (count > ROOM / element) count = ROOM / element;
    return memset(lend(block, count * element), content, count * element);
}

/* The image that was saved last. */
static uint8_t saved[ROOM];
static size_t saved_bytes;

/* Bytes by the input: any, an image of few cells with small numbers, or the saved one. */
static size_t image_of(Input *input, uint8_t kind, uint8_t *image) {
    size_t left = input->size - input->at, bytes = saved_bytes;
    if (kind & 1) {
        memcpy(image, saved, bytes);
    } else if (kind & 2) {
        uint8_t k = (uint8_t)(byte_of(input) % ((cells < 5 ? cells : 5) + 1));
        bytes = 17 + 4 * (size_t)k;
        image[0] = k;
        for (size_t i = 1; i < bytes; i++) {
            uint8_t byte = byte_of(input);
            /* A kind is 0 or 1, and seldom 2. */
            image[i] = (uint8_t)(i < 17 || i % 4 != 1 ? byte % (k + 1u) : byte % 32u == 31 ? 2 : byte % 2u);
        }
    } else {
        bytes = number_of(input, 245) % (left + 1);
        if (bytes > ROOM) bytes = ROOM;
        for (size_t i = 0; i < bytes; i++) image[i] = byte_of(input);
    }
    return bytes;
}

/* The number that goes through this place, or to the end of the bytes, gets groups of 0 behind its own. */
static size_t padded(uint8_t *image, size_t bytes, size_t place, size_t groups) {
    while (place + 1 < bytes && image[place] & 0x80) place++;
    memmove(image + place + 1 + groups, image + place + 1, bytes - place - 1);
    image[place] |= 0x80;
    memset(image + place + 1, 0x80, groups);
    image[place + groups] = 0;
    return bytes + groups;
}

/* Such bytes; then a change of one, or none, and a number padded, or none. */
static void lend_image(Input *input) {
    static uint8_t image[ROOM + 4];
    uint8_t kind = byte_of(input);
    size_t bytes = image_of(input, kind, image);
    if (kind & 4 && bytes > 0) {
        size_t place = place_of(input, bytes);
        image[place] = byte_of(input);
    }
    if (kind & 8 && bytes > 0) {
        size_t place = place_of(input, bytes);
        bytes = padded(image, bytes, place, 1 + byte_of(input) % 4u);
    }
    if (bytes > ROOM) bytes = ROOM;
    memcpy(lend(IMAGE, bytes), image, bytes);
}

/* A link of a cell in the graph: a point has none. */
static uint32_t link_of(const uint32_t *words, uint32_t i, size_t side) {
    return cell_in(words, i)[0] == 0 ? cell_in(words, i)[side] : 0;
}

/* Are the cells of a loaded image, which are the used ones, numbered in the order of the visits, depth first, left before
   right, registers in order? While they are, 1 to `visited` have been visited, and a link to another leads to the next one. */
static int in_order_of_visits(const uint32_t *words) {
    static uint32_t path[4000];
    uint32_t k = 0, visited = 0, link;
    while (k < cells && is_used(words, k + 1)) k++;
    for (size_t i = 2; i < 18; i++) {
        size_t depth = 0;
        link = words[i];
        for (;;) {
            if (link > visited) {
                if (link > visited + 1 || link > k) return 0;
                path[depth++] = ++visited;
                link = link_of(words, link, 1);
            } else if (depth > 0) {
                link = link_of(words, path[--depth], 2);
            } else {
                break;
            }
        }
    }
    return visited == k;
}

/* An image was loaded, up to this byte: it is saved as the bytes that were read exactly if it is in that order. */
static void loaded(size_t end) {
    Results results;
    lend_filled(STACK, 2 * (size_t)cells, sizeof(uint32_t), 0x5A);
    uint8_t *out = lend_filled(OUT, CELLPOOL_IMAGE_BYTES((size_t)cells), 1, 0x77);
    DEMAND(make_plainly(SAVE, &results) == 0);
    int same = results.size[1] == end && memcmp(out, blocks[IMAGE].at[LIBRARY], end) == 0;
    DEMAND(same == in_order_of_visits(words_of(LIBRARY)));
}

/* The worst case was built: such a stack makes no check. A shorter one is full of leaves, which a check drops, and with no word
   there is none to drop. All cells are kept, and no word changes. */
static void built(uint32_t entries) {
    DEMAND(entries == CELLPOOL_STACK(cells));
    const uint32_t lengths[] = {entries, entries - 1, entries / 2, entries / 3, 1, 0};
    for (size_t i = 0; i < sizeof lengths / sizeof *lengths; i++) {
        uint32_t length = lengths[i] <= entries ? lengths[i] : 0, less = length < entries;
        Results results;
        lend_filled(STACK, length, sizeof(uint32_t), 0x5A);
        DEMAND(make_plainly(STACKED, &results) == 0 && results.number[1] == cells);
        DEMAND(results.number[3] == (!less || length > 0));
        DEMAND(results.number[5] == (!less ? 0 : length == 0 ? 1 : (entries - 1) / length));
        DEMAND(memcmp(words_of(LIBRARY), blocks[WORDS].before, blocks[WORDS].bytes) == 0);
    }
}

/* A percent was answered: the nearest whole number, and of two that are equally near the even one. */
static void measured(uint32_t kept, uint32_t n, uint32_t percent) {
    DEMAND(percent <= 100);
    uint32_t exact = 100 * kept, shown = percent * n, twice = 2 * (exact > shown ? exact - shown : shown - exact);
    DEMAND(twice < n || (twice == n && percent % 2 == 0));
}

/* The cells of this state. */
static uint32_t count_of(const uint32_t *words, uint32_t state) {
    uint32_t count = 0;
    for (uint32_t i = 1; i <= cells; i++) count += cell_in(words, i)[0] == state;
    return count;
}

/* The visits of a collection that has kept the used cells. */
static uint32_t visits_of(const uint32_t *words) { return 3 * count_of(words, 0) + count_of(words, 5); }

/* A cell was made, with this state, left, right and value; before, the head was this. */
static void made(const Call *call, uint32_t head, uint32_t state, uint32_t left, uint32_t right, uint32_t visits) {
    uint32_t *words = words_of(LIBRARY), taken = words[2 + call->r];
    const uint32_t content[] = {state, left, right, call->v};
    DEMAND(taken >= 1 && taken <= cells && (head == 0 || taken == head));
    DEMAND(memcmp(cell_in(words, taken), content, sizeof content) == 0);
    DEMAND(visits == (head == 0 ? visits_of(words) - (state == 0 ? 3 : 1) : 0));
}

/* A call by the input. */
static void any_call(Input *input) {
    /* The functions that are no calls, and some more often, take a second byte, which tells how. */
    uint8_t kind = byte_of(input), how = kind < 0xA0 ? 0 : byte_of(input);
    Call call = {kind < 0x80 ? kind % CALLS : kind < 0x90 ? NEW : kind < 0xA0 ? POINT : kind % FUNCTIONS, 0, 0, 0, 0};
    Results results;
    uint32_t head = 0, left = 0, right = 0;
    switch (call.function) {
    case FRESH:
    case COLLECT:
    case WORST:
    case RECURSIVE: break;
    case TALLY:
        call.a = number_of(input, 3) ^ (how & 1 ? UINT32_MAX : 0);
        call.b = number_of(input, 120) ^ (how & 2 ? UINT32_MAX : 0);
        break;
    case STACKED: lend_filled(STACK, number_of(input, cells), sizeof(uint32_t), 0x5A); break;
    case SAVE:
        lend_filled(STACK, 2 * (size_t)cells + byte_of(input) % 8u - (how & 1 && cells > 0), sizeof(uint32_t), 0x5A);
        lend_filled(OUT, how & 2 ? CELLPOOL_IMAGE_BYTES((size_t)cells) : number_of(input, 60), 1, 0x77);
        break;
    case CHECK:
        lend_image(input);
        call.a = how & 1 ? number_of(input, cells) : cells;
        break;
    case LOAD: lend_image(input); break;
    case OCCUPANCY:
        call.a = how & 1 ? any_number_of(input, 4000) : how & 2 ? number_of(input, 4000) : cells;
        call.v = (how & 4 ? number_of : any_number_of)(input, call.a < 4000 ? call.a : 4000);
        break;
    case POINT:
        call.r = byte_of(input) % 17u;
        call.a = number_of(input, cells);
        call.b = number_of(input, cells);
        call.v = number_of(input, cells);
        break;
    default:
        call.r = byte_of(input) % 17u;
        call.a = byte_of(input) % 17u;
        call.b = byte_of(input) % 17u;
        call.v = number_of(input, cells);
        break;
    }
    if (blocks[WORDS].bytes >= 18 * sizeof(uint32_t)) {
        head = words_of(LIBRARY)[1];
        left = call.function == NEW && call.a < 16 ? words_of(LIBRARY)[2 + call.a] : call.a;
        right = call.function == NEW && call.b < 16 ? words_of(LIBRARY)[2 + call.b] : call.b;
    }
    if (make(call, &results) != 0) return;
    if (call.function == FRESH) DEMAND(results.number[1] == cells && results.number[3] == leftover);
    if (call.function == EAST || call.function == NORTH) {
        uint32_t held = words_of(LIBRARY)[2 + call.a];
        DEMAND(results.number[1] == cell_in(words_of(LIBRARY), held)[call.function == EAST ? 1 : 2]);
    }
    if (call.function == NEW) made(&call, head, 0, left, right, results.number[1]);
    if (call.function == POINT) made(&call, head, 5, left, right, results.number[1]);
    if (call.function == LOAD) loaded(results.size[1]);
    if (call.function == WORST) built(results.number[1]);
    if (call.function == OCCUPANCY) measured(call.v, call.a, results.number[1]);
    if (call.function == SAVE) {
        saved_bytes = results.size[1];
        memcpy(saved, blocks[OUT].at[LIBRARY], saved_bytes);
    }
}

/* The least length of a stack that makes no check, by the plain C version; at most as many words as cells are kept. */
static size_t stack_needed(const uint8_t *start, uint32_t kept) {
    size_t least = 0, most = kept;
    while (least < most) {
        size_t length = (least + most) / 2;
        uint32_t *words = words_of(PLAIN), *stack = (uint32_t *)blocks[STACK].room[PLAIN], same_kept, enough, checks = 1;
        memcpy(words, start, blocks[WORDS].bytes);
        baseline_collect_stack(words, blocks[WORDS].bytes / sizeof *words, stack, length, &same_kept, &enough, &checks);
        if (checks == 0) most = length;
        else least = length + 1;
    }
    return least;
}

/* The visits of the plain C version by their cases, on the same words: each kept pair has a first visit, a second and a third, each
   kept point one, and cases 2 and 4 come once for each kept cell at which no run begins. */
static void visits_by_cases(const uint8_t *start, uint32_t answer, uint32_t pairs, uint32_t points) {
    static uint8_t cases[3 * CELLPOOL_MOST_CELLS];
    static uint32_t entered[3 * CELLPOOL_MOST_CELLS];
    uint32_t times[6], runs, *words = words_of(PLAIN);
    size_t len = blocks[WORDS].bytes / sizeof *words;
    memcpy(words, start, blocks[WORDS].bytes);
    DEMAND(baseline_mark_by_cases(words, len, times, &runs, cases, entered) == answer);
    if (answer != 0) return;
    DEMAND(times[1] + times[2] == pairs && times[3] + times[4] == pairs && times[0] == pairs && times[5] == points);
    DEMAND(times[1] + times[3] == pairs + points - runs);
}

/* Every form of collect on the same words: the same words and cells kept, and the same visits where there are some. */
static void forms_of_collect(Input *input) {
    static uint32_t start_words[ROOM / sizeof(uint32_t)];
    static uint8_t collected[ROOM], *const start = (uint8_t *)start_words;
    size_t bytes = blocks[WORDS].bytes;
    Results first, other;
    memcpy(start, words_of(LIBRARY), bytes);
    uint32_t answer = make_plainly(COLLECT, &first), kept = answer == 0 ? first.number[1] : 0;
    memcpy(collected, words_of(LIBRARY), bytes);
    uint32_t pairs = answer == 0 ? count_of(words_of(LIBRARY), 0) : 0, points = kept - pairs;
    if (answer == 0) {
        DEMAND(points == count_of(words_of(LIBRARY), 5) && first.number[3] == 3 * pairs + points);
        /* A kept cell is as it was. */
        for (uint32_t i = 1; i <= cells; i++) {
            const uint32_t *at = cell_in(words_of(LIBRARY), i);
            DEMAND(at[0] == 4 || memcmp(at, cell_in(start_words, i), 4 * sizeof *at) == 0);
        }
    }
    visits_by_cases(start, answer, pairs, points);

#define AGAIN(function)                           \
    (memcpy(words_of(LIBRARY), start, bytes),     \
     make_plainly(function, &other) == answer &&  \
         memcmp(words_of(LIBRARY), collected, bytes) == 0 && other.number[1] == first.number[1])
    DEMAND(AGAIN(TALLY) && other.number[3] == first.number[3]);
    if (cells <= CELLPOOL_MOST_RECURSIVE) DEMAND(AGAIN(RECURSIVE) && other.number[3] == first.number[3]);
    /* No check is made from one length on, since every entry that is held was pushed with another cell beside it; a push marks
       two cells, and has one check at most. Without a word the first check is in vain. */
    lend_filled(STACK, kept, sizeof(uint32_t), 0x5A);
    size_t needed = answer == 0 ? stack_needed(start, kept) : 1;
    DEMAND(answer != 0 || needed == 0 || 2 * needed < kept);
    size_t lengths[] = {0, 1, 2, 3 + input->size % 10, needed > 0 ? needed - 1 : 0, needed, needed + 1,
                        input->size % (kept + 1), cells + (size_t)1};
    for (size_t i = 0; i < sizeof lengths / sizeof *lengths; i++) {
        lend_filled(STACK, lengths[i], sizeof(uint32_t), 0x5A);
        DEMAND(AGAIN(STACKED));
        if (answer != 0) continue;
        uint32_t enough = other.number[3], checks = other.number[5];
        DEMAND((checks == 0) == (lengths[i] >= needed) && enough <= 1 && (checks > 0 || enough));
        DEMAND((checks == 0 || 2 * checks < kept) && (lengths[i] > 0 || checks == !enough));
    }
    memcpy(words_of(LIBRARY), start, bytes);
}

/* A sum over the points of a pool, of their numbers and values, which does not depend on the order. */
static uint32_t sum_of_points(const uint32_t *words) {
    uint32_t sum = 0;
    for (uint32_t i = 1; i <= cells; i++) {
        const uint32_t *at = cell_in(words, i);
        if (at[0] == 5) sum += (at[1] * 3 + at[2] * 5 + at[3] * 7 + 11) * 0x9E3779B9u >> 7;
    }
    return sum;
}

/* One of the eight reads, half of the time left or right, on the words of any pool. */
enum { KINDS_OF_READS = 12 };
static uint32_t read_of(uint32_t *words, size_t len, uint32_t kind, uint32_t r, uint32_t a, uint32_t *number) {
    *number = UNSET;
    switch (kind) {
    case 0: return cellpool_copy(words, len, r, a);
    case 1: return cellpool_clear(words, len, r);
    case 2: return cellpool_value(words, len, a, number);
    case 3: return cellpool_east(words, len, a, number);
    case 4: return cellpool_north(words, len, a, number);
    case 5: return cellpool_same(words, len, r, a, number);
    case 6:
    case 7:
    case 8: return cellpool_left(words, len, r, a);
    default: return cellpool_right(words, len, r, a);
    }
}

/* Pools with the same plan: "every list of copy, clear, left, right, value, east, north and same gives equal answers on both, each
   started from its pool as it was" (02, S-9). Here a list by the input's next byte and its length, on three registers, now and then
   on any. */
enum { ALIKE = 3, READS = 48 };
static void read_alike(Input *input, uint32_t *pools[ALIKE], const size_t lens[ALIKE]) {
    uint32_t mixed = byte_of(input) * 0x9E3779B9u + (uint32_t)input->size;
    called = "a list of reads";
    for (int i = 0; i < READS; i++) {
        uint32_t answer[ALIKE], number[ALIKE];
        mixed = mixed * 1664525u + 1013904223u;
        uint32_t among = mixed >> 28 == 0 ? 18 : 3, r = (mixed >> 8) % among, a = (mixed >> 16) % among;
        for (int pool = 0; pool < ALIKE; pool++) {
            answer[pool] = read_of(pools[pool], lens[pool], (mixed >> 22) % KINDS_OF_READS, r, a, &number[pool]);
            DEMAND(answer[pool] == answer[0] && number[pool] == number[0]);
        }
    }
}

/* An image that was saved fits its bytes and no fewer; it loads, whatever is left over behind the cells, with the pairs and points
   that are reached, and saves as the same bytes, and so does what a collection leaves; every cut is refused. */
static void saved_and_loaded(Input *input) {
    static uint32_t start[ROOM / sizeof(uint32_t)], collected[ROOM / sizeof(uint32_t)];
    size_t len = blocks[WORDS].bytes / sizeof *start;
    Results first, other;
    memcpy(start, words_of(LIBRARY), blocks[WORDS].bytes);
    memcpy(collected, start, blocks[WORDS].bytes);
    uint8_t *out = lend_filled(OUT, CELLPOOL_IMAGE_BYTES((size_t)cells), 1, 0x77);
    lend_filled(STACK, 2 * (size_t)cells, sizeof(uint32_t), 0x5A);
    if (make_plainly(SAVE, &first) != 0) return;
    size_t bytes = first.size[1];
    memcpy(lend(IMAGE, bytes), out, bytes);
    lend_filled(OUT, bytes - 1, 1, 0x77);
    DEMAND(make_plainly(SAVE, NULL) == 10);
    DEMAND(cellpool_collect(collected, len, &other.number[1], &other.number[3]) == 0);
    lend_filled(OUT, bytes, 1, 0x77);
    memcpy(words_of(LIBRARY), collected, blocks[WORDS].bytes);
    DEMAND(make_plainly(SAVE, &other) == 0 && other.size[1] == bytes);
    DEMAND(memcmp(blocks[OUT].at[LIBRARY], blocks[IMAGE].at[LIBRARY], bytes) == 0);
    leftover = byte_of(input) % 4u;
    lend_filled(WORDS, CELLPOOL_WORDS((size_t)cells) + leftover, sizeof(uint32_t), 0x44);
    DEMAND(make_plainly(LOAD, &other) == 0 && other.size[1] == bytes);
    DEMAND(count_of(words_of(LIBRARY), 0) == count_of(collected, 0));
    DEMAND(count_of(words_of(LIBRARY), 5) == count_of(collected, 5));
    DEMAND(sum_of_points(words_of(LIBRARY)) == sum_of_points(collected));
    out = lend_filled(OUT, bytes, 1, 0x77);
    DEMAND(make_plainly(SAVE, &other) == 0 && other.size[1] == bytes);
    DEMAND(memcmp(out, blocks[IMAGE].at[LIBRARY], bytes) == 0);
    Call check = {CHECK, 0, cells, 0, 0};
    DEMAND(make(check, NULL) == 0);
    uint32_t *pools[ALIKE] = {start, collected, words_of(LIBRARY)};
    const size_t lens[ALIKE] = {len, len, blocks[WORDS].bytes / sizeof *start};
    read_alike(input, pools, lens);
    size_t cut = number_of(input, 60) % bytes;
    memcpy(lend(IMAGE, cut), out, cut);
    DEMAND(make(check, NULL) == 6);
}

int LLVMFuzzerTestOneInput(const uint8_t *data, size_t size) {
    Input input = {data, size, 0};
    uint8_t mode = byte_of(&input);
    at_end = mode & AT_END;
    saved_bytes = 0;
    lend_pool(&input, mode);
    /* The forms of collect on the pool as it was lent, or as the calls leave it. */
    if (mode & ONE_REGISTER) forms_of_collect(&input);
    for (int i = 0; i < 24 && (i == 0 || input.at < input.size); i++) any_call(&input);
    if (!(mode & ONE_REGISTER)) forms_of_collect(&input);
    saved_and_loaded(&input);
    return 0;
}

#ifdef STANDALONE
static uint64_t state;

static uint32_t random_word(void) {
    state ^= state >> 12;
    state ^= state << 25;
    state ^= state >> 27;
    return (uint32_t)((state * UINT64_C(0x2545F4914F6CDD1D)) >> 32);
}

/* Random bytes: any, or small ones, which make more well-formed pools and images. The calls are any. */
static size_t random_input(uint8_t *data, size_t room) {
    size_t size = random_word() % (random_word() % 32 == 0 ? room : 600);
    uint32_t kind = random_word() % 4;
    for (size_t i = 0; i < size; i++) {
        uint32_t word = random_word();
        data[i] = (uint8_t)(kind == 0 ? word : kind == 1 ? word % 5 : kind == 2 ? word % 41 : (word & 0x70) ? word & 3 : word >> 8);
    }
    if (size > 0) data[0] = (uint8_t)random_word();
    if (size > 1 && random_word() % 2) data[1] = (uint8_t)(random_word() % 40);
    return size;
}

int main(int argc, char **argv) {
    static uint8_t data[20000];
    unsigned long inputs = argc > 1 ? strtoul(argv[1], NULL, 10) : 20000;
    state = (argc > 2 ? strtoul(argv[2], NULL, 10) : 1) * UINT64_C(0x9E3779B97F4A7C15) | 1;
    for (unsigned long i = 0; i < inputs; i++) LLVMFuzzerTestOneInput(data, random_input(data, sizeof data));
    printf("%lu inputs, no fault\n", inputs);
    return 0;
}
#endif
