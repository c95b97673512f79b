/*
 * The library beside an earlier version of it, whose functions are named before_cellpool_.., in one program, on pools without
 * points: the time of each function divided by that of the same function before, the median of the turns that the two take.
 * The script `run` beside this file links the program several times, with the code of both versions in other places: the time
 * of a short loop depends on where it stands.
 */
#include "cellpool.h"
#include <stdio.h>
#include <stdlib.h>
#include <string.h>
#include <time.h>

enum { CELLS = 4000, LEN = CELLPOOL_WORDS(CELLS), TURNS = 61, RANDOM_GRAPHS = 8, SHAPES = 8 };

/* The functions of the earlier version that are timed, with the arguments that they have today. */
uint32_t before_cellpool_collect(uint32_t *words, size_t len, uint32_t *kept, uint32_t *visits);
uint32_t before_cellpool_collect_stack(uint32_t *words, size_t len, uint32_t *stack, size_t stack_len, uint32_t *kept,
                                       uint32_t *enough, uint32_t *checks);
uint32_t before_cellpool_new(uint32_t *words, size_t len, uint32_t r, uint32_t a, uint32_t b, uint32_t v,
                             uint32_t *visits);
uint32_t before_cellpool_left(uint32_t *words, size_t len, uint32_t r, uint32_t a);
uint32_t before_cellpool_setright(uint32_t *words, size_t len, uint32_t a, uint32_t b);
uint32_t before_cellpool_value(const uint32_t *words, size_t len, uint32_t a, uint32_t *value);
uint32_t before_cellpool_worst_case(uint32_t *words, size_t len, uint32_t *entries);
uint32_t before_cellpool_save(const uint32_t *words, size_t len, uint32_t *scratch, size_t scratch_len, uint8_t *out,
                              size_t out_len, size_t *bytes);
uint32_t before_cellpool_load(uint32_t *words, size_t len, const uint8_t *bytes, size_t bytes_len, size_t *rest);
uint32_t before_cellpool_check_image(const uint8_t *bytes, size_t bytes_len, uint32_t n);

typedef struct {
    uint32_t (*collect)(uint32_t *, size_t, uint32_t *, uint32_t *);
    uint32_t (*collect_stack)(uint32_t *, size_t, uint32_t *, size_t, uint32_t *, uint32_t *, uint32_t *);
    uint32_t (*new_pair)(uint32_t *, size_t, uint32_t, uint32_t, uint32_t, uint32_t, uint32_t *);
    uint32_t (*left)(uint32_t *, size_t, uint32_t, uint32_t);
    uint32_t (*setright)(uint32_t *, size_t, uint32_t, uint32_t);
    uint32_t (*value)(const uint32_t *, size_t, uint32_t, uint32_t *);
    uint32_t (*worst_case)(uint32_t *, size_t, uint32_t *);
    uint32_t (*save)(const uint32_t *, size_t, uint32_t *, size_t, uint8_t *, size_t, size_t *);
    uint32_t (*load)(uint32_t *, size_t, const uint8_t *, size_t, size_t *);
    uint32_t (*check_image)(const uint8_t *, size_t, uint32_t);
} Version;

static const Version versions[2] = {
    {before_cellpool_collect, before_cellpool_collect_stack, before_cellpool_new, before_cellpool_left,
     before_cellpool_setright, before_cellpool_value, before_cellpool_worst_case, before_cellpool_save,
     before_cellpool_load, before_cellpool_check_image},
    {cellpool_collect, cellpool_collect_stack, cellpool_new, cellpool_left, cellpool_setright, cellpool_value,
     cellpool_worst_case, cellpool_save, cellpool_load, cellpool_check_image},
};

static const char *const shapes[SHAPES] = {
    "balanced tree", "left chain", "right chain", "pseudo chain", "left comb", "ladder", "chain of equal links", "random graphs",
};
enum { TREE = 0, LEFT_CHAIN = 1, RANDOM = 7 };

/* The pools of the shape at hand, of which there are several only where they are random; and the words at work. */
static uint32_t pools[RANDOM_GRAPHS][LEN], words[LEN], stack[CELLS], scratch[2 * CELLS];
/* The image that each version saves. */
static uint8_t images[2][CELLPOOL_IMAGE_BYTES(CELLS)];
static size_t lengths[2];

/* The links of cell i, those above CELLS standing for nil. */
static void links(int shape, uint32_t i, uint32_t *left, uint32_t *right) {
    *left = *right = 0;
    switch (shape) {
    case 0: *left = 2 * i, *right = 2 * i + 1; break;
    case 1: *left = i + 1; break;
    case 2: *left = i < CELLS ? CELLS : 0, *right = i + 1; break;
    case 3:
        if (i % 3 == 1) *left = i + 3, *right = i + 1;
        if (i % 3 == 2) *left = i + 1;
        break;
    case 4:
        if (i % 2 == 1) *left = i + 2, *right = i + 1;
        break;
    case 5: *left = i + 2, *right = i % 2 == 1 ? i + 1 : 0; break;
    case 6: *left = *right = i + 1; break;
    default: *left = 1 + (uint32_t)rand() % CELLS, *right = 1 + (uint32_t)rand() % CELLS;
    }
}

/* How many pools there are of a shape; they are built. Register 0 holds cell 1, register 1 cell 2. */
static int build(int shape) {
    int count = shape == RANDOM ? RANDOM_GRAPHS : 1;
    for (int g = 0; g < count; g++) {
        uint32_t *pool = pools[g];
        memset(pool, 0, sizeof pools[g]);
        pool[0] = CELLS, pool[2] = 1, pool[3] = 2;
        for (uint32_t i = 1; i <= CELLS; i++) {
            uint32_t *cell = pool + CELLPOOL_WORDS(i - 1), left, right;
            links(shape, i, &left, &right);
            cell[1] = left <= CELLS ? left : 0;
            cell[2] = right <= CELLS ? right : 0;
            cell[3] = (uint32_t)rand();
        }
    }
    return count;
}

static void expect(uint32_t answer) {
    if (answer != 0) {
        fprintf(stderr, "layouts: %s\n", cellpool_refusal_text(answer));
        exit(1);
    }
}

/* What is timed. */
enum { COLLECT, WITH_STACK, SAVE, LOAD, CHECK, NEW, LEFT, SETRIGHT, VALUE, WORST_CASE, FUNCTIONS };
static const char *const functions[FUNCTIONS] = {
    "collect", "collect with a stack", "save", "load", "check", "new", "left", "setright", "value", "worst case",
};

static void once(int function, int version) {
    const Version *v = &versions[version];
    uint32_t x, y, z;
    size_t bytes;
    switch (function) {
    case COLLECT: expect(v->collect(words, LEN, &x, &y)); break;
    case WITH_STACK: expect(v->collect_stack(words, LEN, stack, CELLS, &x, &y, &z)); break;
    case SAVE: expect(v->save(words, LEN, scratch, 2 * CELLS, images[version], sizeof images[version], &bytes)); break;
    case LOAD: expect(v->load(words, LEN, images[version], lengths[version], &bytes)); break;
    case CHECK: expect(v->check_image(images[version], lengths[version], CELLS)); break;
    case NEW:
        for (int i = 0; i < CELLS; i++) expect(v->new_pair(words, LEN, 0, 0, 1, 7, &x));
        break;
    case LEFT:
        for (int i = 0; i < CELLS - 2; i++) expect(v->left(words, LEN, 1, 1));
        break;
    case SETRIGHT:
        for (int i = 0; i < CELLS; i++) expect(v->setright(words, LEN, 0, 1));
        break;
    case VALUE:
        for (int i = 0; i < CELLS; i++) expect(v->value(words, LEN, 0, &x));
        break;
    default: expect(v->worst_case(words, LEN, &x));
    }
}

static double seconds(void) {
    struct timespec t;
    clock_gettime(CLOCK_MONOTONIC, &t);
    return (double)t.tv_sec + 1e-9 * (double)t.tv_nsec;
}

/* The time of a version on all pools of the shape, several times; the words are put back before each. */
static double sample(int function, int version, int count) {
    double sum = 0;
    for (int repeat = 0; repeat < 16 / count; repeat++) {
        for (int g = 0; g < count; g++) {
            if (function == LOAD || function == CHECK || function == SAVE) {
                memcpy(words, pools[g], sizeof words);
                expect(versions[version].save(words, LEN, scratch, 2 * CELLS, images[version], sizeof images[version],
                                              &lengths[version]));
            } else if (function == NEW) {
                uint32_t x, y;
                expect(cellpool_fresh(words, LEN, &x, &y));
            } else {
                memcpy(words, pools[g], sizeof words);
            }
            double start = seconds();
            once(function, version);
            sum += seconds() - start;
        }
    }
    return sum;
}

static int ascending(const void *a, const void *b) {
    double x = *(const double *)a, y = *(const double *)b;
    return (x > y) - (x < y);
}

static void compare(int function, const char *shape, int count) {
    double ratios[TURNS];
    for (int turn = 0; turn < TURNS; turn++) {
        double times[2];
        for (int i = 0; i < 2; i++) times[(turn + i) % 2] = sample(function, (turn + i) % 2, count);
        ratios[turn] = times[1] / times[0];
    }
    qsort(ratios, TURNS, sizeof *ratios, ascending);
    printf("%s\t%s\t%.3f\n", functions[function], shape, ratios[TURNS / 2]);
}

int main(void) {
    for (int shape = 0; shape < SHAPES; shape++) {
        int count = build(shape);
        compare(COLLECT, shapes[shape], count);
        compare(WITH_STACK, shapes[shape], count);
        if (shape == TREE || shape == LEFT_CHAIN || shape == RANDOM)
            for (int function = SAVE; function <= CHECK; function++) compare(function, shapes[shape], count);
    }
    build(LEFT_CHAIN);
    for (int function = NEW; function < FUNCTIONS; function++) compare(function, "", 1);
    return 0;
}
