/*
 * How much stack each function of the library takes: bytes below the stack pointer as it is at the call, the return address
 * and what a function uses below its own stack pointer (the red zone) among them.
 *
 * Each call is made on a block of its own, which is painted before with one byte and then with another; the lowest byte that
 * has changed tells how far the call went. Inputs are chosen so that every function takes its longest way: all cells used
 * and reached, a stack that is enough, one that its checks make enough and one that is not, a chain of 64 cells for the
 * recursive marker, points among the cells and in images, images of every length of number, percents rounded each way,
 * and refused calls, also at the last number of an image. A line is printed for each function, its name and the most
 * bytes of its calls.
 *
 * x86-64 with the System V calling convention, as the library is.
 */
#include "cellpool.h"

#include <stdio.h>
#include <stdlib.h>
#include <string.h>

enum { N = 4000, SMALL = 64, LEN = CELLPOOL_WORDS(N), SMALL_LEN = CELLPOOL_WORDS(SMALL), ROOM = 1 << 16, TOO_SHORT = 21 };

static uint32_t words[LEN], before[LEN], small[SMALL_LEN], scratch[CELLPOOL_SCRATCH(N)], stack[N], numbers[4];
static uint8_t image[CELLPOOL_IMAGE_BYTES(N)], padded[CELLPOOL_IMAGE_BYTES(N) + 1], unknown[CELLPOOL_IMAGE_BYTES(N)];
static size_t sizes[1], image_len;
static unsigned char block[ROOM] __attribute__((aligned(16)));

typedef void (*Function)(void);

/* Call with up to six arguments in registers and one on the stack, which is the upper end of the block. */
static uint32_t call_on_block(Function function, const uint64_t *arguments) {
    uint64_t answer;
    __asm__ volatile("movq %%rsp, %%rbx\n\t"
                     "movq %[top], %%rsp\n\t"
                     "movq 48(%[arguments]), %%rax\n\t"
                     "movq %%rax, (%%rsp)\n\t"
                     "movq (%[arguments]), %%rdi\n\t"
                     "movq 8(%[arguments]), %%rsi\n\t"
                     "movq 16(%[arguments]), %%rdx\n\t"
                     "movq 24(%[arguments]), %%rcx\n\t"
                     "movq 32(%[arguments]), %%r8\n\t"
                     "movq 40(%[arguments]), %%r9\n\t"
                     "call *%[function]\n\t"
                     "movq %%rbx, %%rsp"
                     : "=&a"(answer)
                     : [function] "r"(function), [arguments] "r"(arguments), [top] "r"(block + ROOM - 16)
                     : "rbx", "rcx", "rdx", "rsi", "rdi", "r8", "r9", "r10", "r11", "xmm0", "xmm1", "xmm2", "xmm3",
                       "xmm4", "xmm5", "xmm6", "xmm7", "xmm8", "xmm9", "xmm10", "xmm11", "xmm12", "xmm13", "xmm14",
                       "xmm15", "cc", "memory");
    return (uint32_t)answer;
}

static size_t most;

/* The words before, the call on a block painted so: how far it went. */
static void try_call(Function function, const uint64_t *arguments, uint32_t expected) {
    static const unsigned char paints[] = {0xA5, 0x5A};
    uint32_t answer;
    size_t place, round;
    memcpy(words, before, sizeof words);
    call_on_block(function, arguments); /* memset is bound at its first call */
    for (round = 0; round < sizeof paints; round++) {
        memcpy(words, before, sizeof words);
        memset(block, paints[round], sizeof block);
        answer = call_on_block(function, arguments);
        if (answer != expected) {
            printf("answer %lu, expected %lu\n", (unsigned long)answer, (unsigned long)expected);
            exit(1);
        }
        for (place = 0; block[place] == paints[round]; place++) {
        }
        if (ROOM - 16 - place > most) most = ROOM - 16 - place;
    }
}

#define AT(pointer) (uint64_t)(uintptr_t)(pointer)
#define TRY(expected, name, ...) try_call((Function)cellpool_##name, (const uint64_t[7]){__VA_ARGS__}, expected)
#define TOLD(name) (printf("cellpool_%s %lu\n", #name, (unsigned long)most), most = 0)

/* All cells used, in the shape of a balanced tree or a chain of equal links from register 0 on. */
static void all_used(uint32_t *pool, uint32_t n, int tree) {
    uint32_t i;
    memset(pool, 0, sizeof *pool * CELLPOOL_WORDS(n));
    pool[0] = n;
    pool[2] = 1;
    for (i = 1; i <= n; i++) {
        uint32_t *cell = pool + CELLPOOL_WORDS(i - 1);
        uint32_t left = tree ? 2 * i : i + 1, right = tree ? 2 * i + 1 : i + 1;
        cell[1] = left <= n ? left : 0;
        cell[2] = right <= n ? right : 0;
        cell[3] = i << (i % 29);
    }
}

/* All cells used: a chain over left links, and to the right of each of its cells a chain of three more, over a right link and over
   equal ones. It ends there, or with forks in the last two cells of the pool: then a check finds every entry needed. */
static void comb(uint32_t *pool, uint32_t n, int forks) {
    uint32_t i;
    all_used(pool, n, 0);
    for (i = 1; i + 2 <= n; i++) {
        uint32_t *cell = pool + CELLPOOL_WORDS(i - 1);
        if (i % 4 == 1) cell[1] = i + 6 <= n ? i + 4 : 0;
        if (i % 4 == 2) cell[1] = 0;
        if (i % 4 == 0) cell[1] = forks ? n - 1 : 0, cell[2] = forks ? n : 0;
    }
}

/* Every cell without links becomes a point, with numbers of every length. */
static void leaves_as_points(uint32_t *pool, uint32_t n) {
    uint32_t i;
    for (i = 1; i <= n; i++) {
        uint32_t *cell = pool + CELLPOOL_WORDS(i - 1);
        if (cell[1] == 0 && cell[2] == 0) cell[0] = 5, cell[1] = i << (i % 31), cell[2] = UINT32_MAX >> (i % 32);
    }
}

/* All cells used as a tree, with points for leaves. */
static void tree_of_points(uint32_t *pool, uint32_t n) {
    all_used(pool, n, 1);
    leaves_as_points(pool, n);
}

static void all_free(void) {
    memset(before, 0, sizeof before);
    before[0] = N;
    before[1] = 1;
    for (uint32_t i = 1; i <= N; i++) {
        before[CELLPOOL_WORDS(i - 1)] = 4;
        before[CELLPOOL_WORDS(i - 1) + 1] = i < N ? i + 1 : 0;
    }
}

/* The bytes of the last cell of the image: its last four numbers, each with one byte without the top bit, at its end. */
static size_t last_cell_bytes(void) {
    size_t ends = 0, bytes = 0;
    while (ends < 5) ends += image[image_len - ++bytes] < 0x80;
    return bytes - 1;
}

int main(void) {
    const uint64_t w = AT(words), r0 = AT(numbers), r1 = AT(numbers + 1), r2 = AT(numbers + 2), r3 = AT(numbers + 3);
    int tree, forks;

    all_used(before, N, 1);
    TRY(0, fresh, w, LEN, r0, r1), TRY(0, fresh, w, LEN - 1, r0, r1), TRY(1, fresh, w, TOO_SHORT, r0, r1), TOLD(fresh);
    TRY(0, copy, w, LEN, 3, 0), TRY(2, copy, w, LEN, 16, 0), TOLD(copy);
    TRY(0, clear, w, LEN, 0), TRY(1, clear, w, TOO_SHORT, 0), TOLD(clear);
    for (tree = 0; tree < 2; tree++) {
        all_used(before, N, tree);
        TRY(5, new, w, LEN, 0, 0, 0, 7, r0);
        before[2] = 2; /* cell 1 is garbage in the chain, half the cells in the tree */
        TRY(0, new, w, LEN, 0, 0, 0, 7, r0);
        before[2] = N + 1;
        TRY(3, new, w, LEN, 1, 1, 1, 7, r0);
    }
    tree_of_points(before, N);
    TRY(5, new, w, LEN, 0, 0, 0, 7, r0);
    before[2] = 2;
    TRY(0, new, w, LEN, 0, 0, 0, 7, r0);
    all_free();
    TRY(0, new, w, LEN, 0, 0, 0, 7, r0), TOLD(new);
    TRY(0, point, w, LEN, 0, 7, 8, 9, r0);
    for (tree = 0; tree < 3; tree++) {
        if (tree < 2) all_used(before, N, tree);
        else tree_of_points(before, N);
        TRY(5, point, w, LEN, 0, 7, 8, 9, r0);
        before[2] = 2;
        TRY(0, point, w, LEN, 0, 7, 8, 9, r0);
        before[2] = N + 1;
        TRY(3, point, w, LEN, 1, 7, 8, 9, r0);
    }
    TRY(2, point, w, LEN, 16, 7, 8, 9, r0), TOLD(point);
    /* Register 0 holds a pair, register 2 a point, register 1 is nil. */
    tree_of_points(before, N);
    before[4] = N;
    TRY(0, left, w, LEN, 1, 0), TRY(4, left, w, LEN, 0, 1), TRY(13, left, w, LEN, 0, 2), TOLD(left);
    TRY(0, right, w, LEN, 1, 0), TRY(4, right, w, LEN, 0, 1), TRY(13, right, w, LEN, 0, 2), TOLD(right);
    TRY(0, setleft, w, LEN, 0, 1), TRY(4, setleft, w, LEN, 1, 0), TRY(13, setleft, w, LEN, 2, 0), TOLD(setleft);
    TRY(0, setright, w, LEN, 0, 1), TRY(4, setright, w, LEN, 1, 0), TRY(13, setright, w, LEN, 2, 0), TOLD(setright);
    TRY(0, setvalue, w, LEN, 0, 1), TRY(4, setvalue, w, LEN, 1, 0), TRY(0, setvalue, w, LEN, 2, 1), TOLD(setvalue);
    TRY(0, value, w, LEN, 0, r0), TRY(4, value, w, LEN, 1, r0), TRY(0, value, w, LEN, 2, r0), TOLD(value);
    TRY(0, east, w, LEN, 2, r0), TRY(4, east, w, LEN, 1, r0), TRY(13, east, w, LEN, 0, r0), TOLD(east);
    TRY(0, north, w, LEN, 2, r0), TRY(4, north, w, LEN, 1, r0), TRY(13, north, w, LEN, 0, r0), TOLD(north);
    TRY(0, same, w, LEN, 0, 1, r0), TRY(2, same, w, LEN, 1, 16, r0), TOLD(same);
#define EVERY_WAY(name, ...)                                                                                           \
    do {                                                                                                               \
        for (tree = 0; tree < 3; tree++) {                                                                             \
            if (tree < 2) all_used(before, N, tree);                                                                   \
            else tree_of_points(before, N);                                                                            \
            TRY(0, name, __VA_ARGS__);                                                                                 \
            before[5] = N + 1;                                                                                         \
            TRY(3, name, __VA_ARGS__);                                                                                 \
        }                                                                                                              \
    } while (0)
    EVERY_WAY(collect, w, LEN, r0, r1);
    TOLD(collect);
    EVERY_WAY(collect_tally, w, LEN, r0, r1, r2, r3);
    TOLD(collect_tally);
    EVERY_WAY(collect_stack, w, LEN, AT(stack), N, r0, r1, r2);
    EVERY_WAY(collect_stack, w, LEN, AT(stack), 1, r0, r1, r2);
    EVERY_WAY(collect_stack, w, LEN, AT(stack), 0, r0, r1, r2);
    /* Checks that walk from every entry, and drop all of them or none. */
    for (forks = 0; forks < 2; forks++) {
        comb(before, N, forks);
        TRY(0, collect_stack, w, LEN, AT(stack), 10, r0, r1, r2);
        if (numbers[1] == (uint32_t)forks || numbers[2] == 0) return 1;
    }
    TOLD(collect_stack);
    TRY(0, worst_case, w, LEN, r0), TRY(0, worst_case, w, LEN - 1, r0), TRY(1, worst_case, w, TOO_SHORT, r0), TOLD(worst_case);
    all_used(small, SMALL, 0);
    TRY(0, collect_recursive, AT(small), SMALL_LEN, r0, r1);
    all_used(small, SMALL, 1);
    TRY(0, collect_recursive, AT(small), SMALL_LEN, r0, r1);
    tree_of_points(small, SMALL);
    TRY(0, collect_recursive, AT(small), SMALL_LEN, r0, r1);
    TRY(11, collect_recursive, w, LEN, r0, r1);
    TOLD(collect_recursive);
    EVERY_WAY(save, w, LEN, AT(scratch), CELLPOOL_SCRATCH(N), AT(image), sizeof image, AT(sizes));
    tree_of_points(before, N);
    TRY(10, save, w, LEN, AT(scratch), CELLPOOL_SCRATCH(N), AT(image), 100, AT(sizes));
    TRY(0, save, w, LEN, AT(scratch), CELLPOOL_SCRATCH(N), AT(image), sizeof image, AT(sizes));
    image_len = sizes[0];
    TOLD(save);
    /* The last value has fewer than five groups, and gets one of 0 behind its own. */
    memcpy(padded, image, image_len);
    padded[image_len - 1] |= 0x80;
    memcpy(unknown, image, image_len);
    unknown[image_len - last_cell_bytes()] = 2;
    TRY(0, load, w, LEN, AT(image), image_len, AT(sizes));
    TRY(6, load, w, LEN, AT(image), image_len - 1, AT(sizes));
    TRY(12, load, w, LEN, AT(padded), image_len + 1, AT(sizes));
    TRY(14, load, w, LEN, AT(unknown), image_len, AT(sizes));
    TOLD(load);
    TRY(0, check_image, AT(image), image_len, N);
    TRY(6, check_image, AT(image), image_len - 1, N);
    TRY(9, check_image, AT(image), image_len, N - 1);
    TRY(12, check_image, AT(padded), image_len + 1, N);
    TRY(14, check_image, AT(unknown), image_len, N);
    TOLD(check_image);
    TRY(0, occupancy, 1, 3, r0), TRY(0, occupancy, 2, 3, r0), TRY(0, occupancy, 3, 3, r0), TRY(1, occupancy, 3, 1, r0);
    TRY(0, occupancy, 20, N, r0), TRY(0, occupancy, 60, N, r0), TRY(1, occupancy, 1, N + 1, r0), TOLD(occupancy);
    return 0;
}
