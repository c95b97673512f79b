/*
 * Which lent memory the functions of cellpool.h touch, and lengths of 2^32 elements and more.
 *
 *   lent lengths   Lengths that are right, or too short, without their upper bits. Of a block so long only the first page may
 *                  be touched, and an access behind it is noticed. It must come where the stack needs more words, and where
 *                  all of a block is to end 0, and must not come elsewhere. Blocks of length 0 are not touched, and neither
 *                  are the words left over behind a pool's cells.
 *   lent results   A refused call neither reads nor writes the numbers lent for its results.
 *
 * Every difference is printed, and the program then ends with 1.
 */
#define _DEFAULT_SOURCE
#include "cellpool.h"

#include <setjmp.h>
#include <signal.h>
#include <stdio.h>
#include <stdlib.h>
#include <string.h>
#include <sys/mman.h>
#include <unistd.h>

/* The answer of a call that touches what it must not. */
#define TOUCHED UINT32_MAX

static sigjmp_buf back;
static uint8_t *volatile touched;
static volatile uint32_t answer;
static int differences;

static void on_fault(int number, siginfo_t *info, void *context) {
    (void)number;
    (void)context;
    touched = info->si_addr;
    siglongjmp(back, 1);
}

static void differs(int line, const char *what) {
    differences++;
    printf("lent.c:%d: %s", line, what);
}

#define DEMAND(condition) ((condition) ? (void)0 : differs(__LINE__, "not so: " #condition "\n"))

/* Make a call, and demand this answer. */
#define EXPECT(expected, call)                                                 \
    do {                                                                       \
        if (sigsetjmp(back, 1) == 0) {                                         \
            answer = (call);                                                   \
        } else {                                                               \
            answer = TOUCHED;                                                  \
        }                                                                      \
        if (answer != (expected)) {                                            \
            differs(__LINE__, #call);                                          \
            if (answer == TOUCHED) printf(" touches %p\n", (void *)touched);   \
            if (answer != TOUCHED) printf(" answers %u\n", (unsigned)answer);  \
        }                                                                      \
    } while (0)

/* Address space of which only the front may be touched; not reserved in memory. */
static uint8_t *space(size_t bytes, size_t front) {
    uint8_t *all = mmap(NULL, bytes, PROT_NONE, MAP_PRIVATE | MAP_ANONYMOUS | MAP_NORESERVE, -1, 0);
    if (all == MAP_FAILED || (front > 0 && mprotect(all, front, PROT_READ | PROT_WRITE) != 0)) {
        perror("address space");
        exit(2);
    }
    return all;
}

/* A pool of two cells: register 0 holds cell 2, whose links both lead to cell 1. It needs no stack word. Register 1 is nil. */
enum { N = 2, LEN = CELLPOOL_WORDS(N), TOO_SHORT = CELLPOOL_WORDS(1) - 1, SCRATCH = CELLPOOL_SCRATCH(N) };
static uint32_t pool[LEN], scratch[SCRATCH], stack[1], numbers[4];
static size_t sizes[1];

static void set_up(void) {
    static const uint32_t cells[] = {0, 0, 0, 7, 0, 1, 1, 8};
    memset(pool, 0, sizeof pool);
    pool[0] = N;
    pool[2] = 2;
    memcpy(pool + 18, cells, sizeof cells);
}

/* The same with one word changed. */
static uint32_t *changed(size_t place, uint32_t content) {
    set_up();
    pool[place] = content;
    return pool;
}

/* The largest pool, as the worst case for the stack: the stack marker pushes cells 2, 4, 6 and so on, 1,999 of them. */
static uint32_t largest[CELLPOOL_WORDS(4000)];

static void set_up_largest(void) {
    EXPECT(0, cellpool_worst_case(largest, CELLPOOL_WORDS(4000), numbers));
    DEMAND(numbers[0] == 1999);
}

/* The image of the small one. */
static const uint8_t image[] = {2, 1, 0, 0, 0, 0, 0, 0, 0, 0, 0, 0, 0, 0, 0, 0, 0, 0, 2, 2, 8, 0, 0, 0, 7};
enum { IMAGE = sizeof image };

/* Blocks of which nothing may be touched, and blocks with a first page that may. An image has its place at the end of such
   a page. */
static uint32_t *none, *front;
static uint8_t *no_bytes, *saved, *out;
static size_t page, room;

/* The last call touched what is behind the first page of this block. */
static int behind(void) { return touched >= (uint8_t *)front + page && touched < (uint8_t *)front + room; }

/* That page is full of what the stack marker pushes for the largest pool. */
static int pending(void) {
    for (uint32_t i = 0; i < page / sizeof *front; i++)
        if (front[i] != 2 * i + 2) return 0;
    return 1;
}

/* The words have a wrong length, and are not touched. */
static void refused_words(size_t len) {
    EXPECT(1, cellpool_fresh(none, len, numbers, numbers + 1));
    EXPECT(1, cellpool_copy(none, len, 0, 0));
    EXPECT(1, cellpool_clear(none, len, 0));
    EXPECT(1, cellpool_new(none, len, 0, 0, 0, 7, numbers));
    EXPECT(1, cellpool_point(none, len, 0, 7, 1, 1, numbers));
    EXPECT(1, cellpool_left(none, len, 0, 0));
    EXPECT(1, cellpool_right(none, len, 0, 0));
    EXPECT(1, cellpool_setleft(none, len, 0, 0));
    EXPECT(1, cellpool_setright(none, len, 0, 0));
    EXPECT(1, cellpool_setvalue(none, len, 0, 7));
    EXPECT(1, cellpool_value(none, len, 0, numbers));
    EXPECT(1, cellpool_east(none, len, 0, numbers));
    EXPECT(1, cellpool_north(none, len, 0, numbers));
    EXPECT(1, cellpool_same(none, len, 0, 0, numbers));
    EXPECT(1, cellpool_collect(none, len, numbers, numbers + 1));
    EXPECT(1, cellpool_collect_tally(none, len, numbers, numbers + 1, numbers + 2, numbers + 3));
    EXPECT(1, cellpool_collect_stack(none, len, none, 1, numbers, numbers + 1, numbers + 2));
    EXPECT(1, cellpool_worst_case(none, len, numbers));
    EXPECT(1, cellpool_collect_recursive(none, len, numbers, numbers + 1));
    EXPECT(1, cellpool_save(none, len, none, CELLPOOL_SCRATCH(4000), no_bytes, IMAGE, sizes));
    EXPECT(1, cellpool_load(none, len, no_bytes, IMAGE, sizes));
    DEMAND(sizes[0] == IMAGE);
}

/* Blocks without elements. */
static void no_elements(void) {
    refused_words(0);
    set_up();
    EXPECT(0, cellpool_collect_stack(pool, LEN, none, 0, numbers, numbers + 1, numbers + 2));
    DEMAND(numbers[0] == N && numbers[1] == 1 && numbers[2] == 0);
    set_up_largest();
    EXPECT(0, cellpool_collect_stack(largest, CELLPOOL_WORDS(4000), none, 0, numbers, numbers + 1, numbers + 2));
    DEMAND(numbers[0] == 4000 && numbers[1] == 0 && numbers[2] == 1);
    EXPECT(10, cellpool_save(pool, LEN, none, 0, no_bytes, 0, sizes));
    EXPECT(10, cellpool_save(pool, LEN, scratch, SCRATCH, no_bytes, 0, sizes));
    EXPECT(6, cellpool_load(pool, LEN, no_bytes, 0, sizes));
    DEMAND(sizes[0] == 0);
    EXPECT(6, cellpool_check_image(no_bytes, 0, N));
}

/* The words left over stand on a page of which nothing may be touched. Register 0 holds cell 1, and cell 2 is garbage. */
static void left_over(uint32_t leftover) {
    static uint8_t written[IMAGE];
    uint32_t *words = front + page / sizeof *front - LEN;
    size_t len = LEN + leftover;
#define EXPECT_ON(expected, call) EXPECT(expected, (memcpy(words, changed(2, 1), sizeof pool), call))
    EXPECT_ON(0, cellpool_fresh(words, len, numbers, numbers + 1));
    DEMAND(numbers[0] == N && numbers[1] == leftover);
    EXPECT_ON(0, cellpool_copy(words, len, 3, 0));
    EXPECT_ON(0, cellpool_clear(words, len, 0));
    EXPECT_ON(0, cellpool_new(words, len, 0, 0, 0, 7, numbers));
    DEMAND(numbers[0] == 3 && words[2] == 2);
    EXPECT_ON(0, cellpool_point(words, len, 0, 7, N + 1, N + 2, numbers));
    DEMAND(numbers[0] == 3 && words[2] == 2);
    /* Cell 2 is the point now, and its numbers lead past the end, where nothing is touched. */
    EXPECT(0, cellpool_east(words, len, 0, numbers));
    EXPECT(0, cellpool_north(words, len, 0, numbers + 1));
    DEMAND(numbers[0] == N + 1 && numbers[1] == N + 2);
    EXPECT(13, cellpool_left(words, len, 1, 0));
    EXPECT(0, cellpool_collect(words, len, numbers, numbers + 1));
    DEMAND(numbers[0] == 1 && numbers[1] == 1);
    EXPECT(0, cellpool_collect_stack(words, len, stack, 1, numbers, numbers + 1, numbers + 2));
    EXPECT(0, cellpool_collect_recursive(words, len, numbers, numbers + 1));
    EXPECT(0, cellpool_save(words, len, scratch, SCRATCH, written, IMAGE, sizes));
    DEMAND(sizes[0] == 21);
    EXPECT_ON(0, cellpool_left(words, len, 1, 0));
    EXPECT_ON(0, cellpool_right(words, len, 1, 0));
    EXPECT_ON(0, cellpool_setleft(words, len, 0, 0));
    EXPECT_ON(0, cellpool_setright(words, len, 0, 0));
    EXPECT_ON(0, cellpool_setvalue(words, len, 0, 9));
    EXPECT_ON(0, cellpool_value(words, len, 0, numbers));
    EXPECT_ON(0, cellpool_same(words, len, 0, 1, numbers));
    EXPECT_ON(0, cellpool_collect(words, len, numbers, numbers + 1));
    EXPECT_ON(0, cellpool_collect_tally(words, len, numbers, numbers + 1, numbers + 2, numbers + 3));
    EXPECT_ON(0, cellpool_collect_stack(words, len, stack, 1, numbers, numbers + 1, numbers + 2));
    EXPECT_ON(0, cellpool_worst_case(words, len, numbers));
    EXPECT_ON(0, cellpool_collect_recursive(words, len, numbers, numbers + 1));
    EXPECT_ON(0, cellpool_save(words, len, scratch, SCRATCH, written, IMAGE, sizes));
    EXPECT_ON(0, cellpool_load(words, len, image, IMAGE, sizes));
    DEMAND(sizes[0] == IMAGE);
    /* The pool is tested to its end, and a register that leads past it is not followed there. */
    memcpy(words, changed(2, N + 1), sizeof pool);
    EXPECT(3, cellpool_copy(words, len, 0, 0));
    EXPECT(3, cellpool_collect(words, len, numbers, numbers + 1));
    memcpy(words, changed(1, N + 1), sizeof pool);
    EXPECT(3, cellpool_new(words, len, 0, 0, 0, 7, numbers));
    EXPECT(3, cellpool_point(words, len, 0, 7, 1, 1, numbers));
#undef EXPECT_ON
}

/* A check looks at the words of the stack and at none beside them: they are the last ones of a page. The leaves are dropped. */
static void full_stack(uint32_t length) {
    set_up_largest();
    uint32_t *last = front + page / sizeof *front - length;
    EXPECT(0, cellpool_collect_stack(largest, CELLPOOL_WORDS(4000), last, length, numbers, numbers + 1, numbers + 2));
    DEMAND(numbers[0] == 4000 && numbers[1] == 1 && numbers[2] == 1998 / length);
}

/* Lengths with these upper bits. */
static void long_blocks(size_t upper) {
    refused_words(upper + CELLPOOL_WORDS(1));
    refused_words(upper + CELLPOOL_WORDS(4000));

    /* Bytes: the image is read, and no byte behind it; refused, the rest is all of the length. */
    memcpy(saved, image, IMAGE);
    EXPECT(0, cellpool_load(pool, LEN, saved, upper + IMAGE - 1, sizes));
    DEMAND(sizes[0] == IMAGE);
    EXPECT(0, cellpool_check_image(saved, upper + IMAGE - 1, N));
    saved[0] = 3;
    EXPECT(9, cellpool_load(pool, LEN, saved, upper + 1, sizes));
    DEMAND(sizes[0] == upper + 1);
    EXPECT(9, cellpool_check_image(saved, upper + 1, N));
    /* A kind that there is not, and a padded number, at the end of the page. */
    memcpy(saved + 3, image, IMAGE - 3);
    saved[IMAGE - 1] = 2;
    EXPECT(14, cellpool_load(pool, LEN, saved + 3, upper + IMAGE - 3, sizes));
    DEMAND(sizes[0] == upper + IMAGE - 3);
    EXPECT(14, cellpool_check_image(saved + 3, upper + IMAGE - 3, N));
    saved[IMAGE - 2] = 0x82;
    saved[IMAGE - 1] = 0;
    EXPECT(12, cellpool_load(pool, LEN, saved + IMAGE - 2, upper + 2, sizes));
    DEMAND(sizes[0] == upper + 2);
    EXPECT(12, cellpool_check_image(saved + IMAGE - 2, upper + 2, N));
    EXPECT(1, cellpool_load(pool, TOO_SHORT, no_bytes, upper + 3, sizes));
    DEMAND(sizes[0] == upper + 3);
    EXPECT(1, cellpool_check_image(no_bytes, upper + 3, 0));

    /* Output: it is long enough, and no byte behind the image is touched. */
    set_up();
    sizes[0] = 0;
    memset(out, 0x55, IMAGE);
    EXPECT(0, cellpool_save(pool, LEN, scratch, SCRATCH, out, upper + IMAGE - 1, sizes));
    DEMAND(sizes[0] == IMAGE && memcmp(out, image, IMAGE) == 0);
    EXPECT(10, cellpool_save(pool, LEN, none, SCRATCH - 1, no_bytes, upper, sizes));

    /* Scratch: it is long enough, and all of it is to end 0 once the pool is well-formed; else it is left. */
    EXPECT(TOUCHED, cellpool_save(pool, LEN, front, upper + SCRATCH - 1, out, IMAGE, sizes));
    DEMAND(behind());
    EXPECT(TOUCHED, cellpool_save(pool, LEN, front, upper + SCRATCH, out, IMAGE, sizes));
    DEMAND(behind());
    EXPECT(TOUCHED, cellpool_save(pool, LEN, front, upper + SCRATCH, out, 0, sizes));
    DEMAND(behind());
    EXPECT(3, cellpool_save(changed(3, 3), LEN, none, upper + SCRATCH - 1, no_bytes, upper, sizes));

    /* Stack: it is long enough. The access behind its first page comes when that is full. */
    set_up_largest();
    memset(front, 0x55, page);
    EXPECT(TOUCHED, cellpool_collect_stack(largest, CELLPOOL_WORDS(4000), front, upper, numbers, numbers + 1, numbers + 2));
    DEMAND(behind() && pending());

    /* All of it is to end 0, where the pool is well-formed; else it is left. */
    EXPECT(3, cellpool_collect_stack(pool, LEN, none, upper, numbers, numbers + 1, numbers + 2));
    set_up();
    EXPECT(TOUCHED, cellpool_collect_stack(pool, LEN, front, upper, numbers, numbers + 1, numbers + 2));
    DEMAND(behind());
    set_up();
    EXPECT(TOUCHED, cellpool_collect_stack(pool, LEN, front, upper + 1, numbers, numbers + 1, numbers + 2));
    DEMAND(behind());
}

static void lengths(void) {
    static const unsigned bits[] = {16, 31, 32, 33};
    page = (size_t)sysconf(_SC_PAGESIZE);
    room = ((size_t)1 << 35) + ((size_t)1 << 20);
    none = (uint32_t *)space(room, 0);
    no_bytes = (uint8_t *)none;
    front = (uint32_t *)space(room, page);
    saved = space(room, page) + page - IMAGE;
    out = space(room, page) + page - IMAGE;
    no_elements();
    full_stack(1);
    full_stack(10);
    full_stack(1000);
    for (uint32_t leftover = 0; leftover < 4; leftover++) {
        left_over(leftover);
        refused_words(CELLPOOL_WORDS(0) + leftover);
        refused_words(CELLPOOL_WORDS(4001) + leftover);
    }
    for (size_t i = 0; i < sizeof bits / sizeof *bits; i++) long_blocks((size_t)1 << bits[i]);
}

/* Every refusal of every function that gives numbers, with results that may be neither read nor written. */
static void results(void) {
    static uint32_t large[CELLPOOL_WORDS(65)];
    uint8_t written[IMAGE];
    uint32_t *lent = (uint32_t *)space(1, 0);
    size_t *size = (size_t *)lent;

    EXPECT(1, cellpool_fresh(pool, TOO_SHORT, lent, lent + 1));

    EXPECT(1, cellpool_new(changed(0, 1), LEN, 0, 0, 0, 7, lent));
    set_up();
    EXPECT(2, cellpool_new(pool, LEN, 16, 0, 0, 7, lent));
    EXPECT(2, cellpool_new(pool, LEN, 0, 16, 0, 7, lent));
    EXPECT(2, cellpool_new(pool, LEN, 0, 0, 16, 7, lent));
    EXPECT(5, cellpool_new(pool, LEN, 0, 0, 0, 7, lent));
    EXPECT(3, cellpool_new(changed(3, 3), LEN, 0, 1, 0, 7, lent));
    EXPECT(3, cellpool_new(pool, LEN, 0, 0, 1, 7, lent));
    EXPECT(3, cellpool_new(pool, LEN, 0, 0, 0, 7, lent));
    EXPECT(3, cellpool_new(changed(1, 3), LEN, 0, 0, 0, 7, lent));
    EXPECT(3, cellpool_new(changed(1, 1), LEN, 0, 0, 0, 7, lent));
    pool[18] = 4;
    pool[19] = 3;
    EXPECT(3, cellpool_new(pool, LEN, 0, 0, 0, 7, lent));

    EXPECT(1, cellpool_point(changed(0, 1), LEN, 0, 7, 1, 1, lent));
    set_up();
    EXPECT(2, cellpool_point(pool, LEN, 16, 7, 1, 1, lent));
    EXPECT(5, cellpool_point(pool, LEN, 0, 7, 1, 1, lent));
    EXPECT(3, cellpool_point(changed(3, 3), LEN, 0, 7, 1, 1, lent));
    EXPECT(3, cellpool_point(changed(1, 3), LEN, 0, 7, 1, 1, lent));
    EXPECT(3, cellpool_point(changed(1, 1), LEN, 0, 7, 1, 1, lent));
    pool[18] = 4;
    pool[19] = 3;
    EXPECT(3, cellpool_point(pool, LEN, 0, 7, 1, 1, lent));

    EXPECT(1, cellpool_value(changed(0, 1), LEN, 0, lent));
    EXPECT(2, cellpool_value(changed(3, 3), LEN, 16, lent));
    EXPECT(3, cellpool_value(pool, LEN, 1, lent));
    EXPECT(4, cellpool_value(pool, LEN, 2, lent));

    EXPECT(1, cellpool_east(changed(0, 1), LEN, 0, lent));
    EXPECT(2, cellpool_east(changed(3, 3), LEN, 16, lent));
    EXPECT(3, cellpool_east(pool, LEN, 1, lent));
    EXPECT(4, cellpool_east(pool, LEN, 2, lent));
    EXPECT(13, cellpool_east(pool, LEN, 0, lent));
    EXPECT(1, cellpool_north(changed(0, 1), LEN, 0, lent));
    EXPECT(2, cellpool_north(changed(3, 3), LEN, 16, lent));
    EXPECT(3, cellpool_north(pool, LEN, 1, lent));
    EXPECT(4, cellpool_north(pool, LEN, 2, lent));
    EXPECT(13, cellpool_north(pool, LEN, 0, lent));

    EXPECT(1, cellpool_same(changed(0, 1), LEN, 0, 0, lent));
    EXPECT(2, cellpool_same(changed(3, 3), LEN, 16, 0, lent));
    EXPECT(2, cellpool_same(pool, LEN, 0, 16, lent));
    EXPECT(3, cellpool_same(pool, LEN, 1, 0, lent));
    EXPECT(3, cellpool_same(pool, LEN, 0, 1, lent));

    EXPECT(1, cellpool_collect(changed(0, 1), LEN, lent, lent + 1));
    EXPECT(3, cellpool_collect(changed(3, 3), LEN, lent, lent + 1));
    EXPECT(1, cellpool_collect_tally(changed(0, 1), LEN, lent, lent + 1, lent + 2, lent + 3));
    EXPECT(3, cellpool_collect_tally(changed(3, 3), LEN, lent, lent + 1, lent + 2, lent + 3));
    EXPECT(1, cellpool_collect_stack(changed(0, 1), LEN, stack, 1, lent, lent + 1, lent + 2));
    EXPECT(3, cellpool_collect_stack(changed(3, 3), LEN, stack, 1, lent, lent + 1, lent + 2));
    EXPECT(1, cellpool_worst_case(pool, TOO_SHORT, lent));
    EXPECT(1, cellpool_collect_recursive(changed(0, 1), LEN, lent, lent + 1));
    EXPECT(3, cellpool_collect_recursive(changed(3, 3), LEN, lent, lent + 1));
    large[0] = 65;
    EXPECT(11, cellpool_collect_recursive(large, CELLPOOL_WORDS(65), lent, lent + 1));

    EXPECT(1, cellpool_save(changed(0, 1), LEN, scratch, SCRATCH, written, IMAGE, size));
    EXPECT(10, cellpool_save(changed(3, 3), LEN, scratch, SCRATCH - 1, written, IMAGE, size));
    EXPECT(3, cellpool_save(pool, LEN, scratch, SCRATCH, written, IMAGE, size));
    set_up();
    EXPECT(10, cellpool_save(pool, LEN, scratch, SCRATCH, written, IMAGE - 1, size));

    EXPECT(1, cellpool_occupancy(0, 0, lent));
    EXPECT(1, cellpool_occupancy(1, 4001, lent));
    EXPECT(1, cellpool_occupancy(3, 2, lent));
}

int main(int argc, char **argv) {
    static const struct {
        const char *name;
        void (*run)(void);
    } parts[] = {{"lengths", lengths}, {"results", results}};
    struct sigaction action;
    memset(&action, 0, sizeof action);
    action.sa_sigaction = on_fault;
    action.sa_flags = SA_SIGINFO;
    if (sizeof(size_t) < 8 || sigaction(SIGSEGV, &action, NULL) != 0) return 2;
    for (size_t i = 0; i < sizeof parts / sizeof *parts; i++)
        if (argc < 2 || strcmp(argv[1], parts[i].name) == 0) parts[i].run();
    printf("%d differences\n", differences);
    return differences != 0;
}
