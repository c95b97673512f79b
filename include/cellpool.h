/*
 * cellpool: a pool of cells in 32-bit words that the caller lends. A used cell is a pair, of two links and a value, or a
 * point, of two numbers x and y and a value.
 *
 * A pool of N cells, N from 1 to 4,000, is a block of 18 + 4 * N words (CELLPOOL_WORDS) and none to three more, which
 * are left over: any length from 22 to 16,021 is that of a pool, and N comes from the length alone (CELLPOOL_CELLS).
 *   word 0        N
 *   word 1        head of the chain of free cells, 0 for none
 *   words 2..17   registers 0 to 15
 *   then four words for each cell 1 to N: state (0 a pair, 4 free, 5 a point), left, right, value; of a point x stands in
 *   the place of left, and y in that of right
 *   then the words left over, whose content is the caller's
 * A link is 0 (nil) or the number of a cell. It is valid if it is 0 or the number of a used cell, a pair or a point. A
 * pool is well-formed if every state is 0, 4 or 5 and all registers and all links of pairs are valid. The x and y of a
 * point are any numbers: no function takes them for links.
 *
 * Every function is total: it answers CELLPOOL_OK or a refusal, for any content of the words. A refusal leaves every
 * lent block as it was, except where a function says so below, and neither reads nor writes the numbers lent for
 * results (cellpool_load's rest apart): these may be uninitialised. A function checks for its refusals in the order in
 * which they are listed with it.
 *
 * The words left over hold nothing of the pool. Accepted or refused, no function changes them, and nothing that it
 * answers or leaves depends on what they hold: a save is the same bytes with them and without. Between calls the caller
 * may keep anything there; during a call they belong to the lent block as all others do.
 *
 * What the caller sees to
 *   - Pointers are not null, also where a length is 0, and aligned as C asks for their type: words, stack, scratch and
 *     lent numbers to 4 bytes, size_t to 8; images may stand anywhere. Lengths are counted in elements.
 *   - Lent blocks do not overlap, and are used by nobody else during a call.
 *   - One pool is used by one thread at a time, also in calls that are refused: a collection changes the words while
 *     it runs, also that of a cellpool_new or cellpool_point which is then refused with 5, after which every word is as
 *     it was. No function keeps a pointer, allocates, or uses global state, so two pools may be used at the same time.
 *   - An image has no magic number, no version and no checksum: bytes that happen to be an image of another plan, or
 *     one with a flipped bit in a value, are loaded. Where storage or a link may fail, put a checksum around it.
 *   - A number of an image has one form, its fewest bytes: 5 is 05, and 85 00 is refused with 12. Whoever writes images
 *     without cellpool_save sees to that. So one plan, its cells numbered as cellpool_save numbers them, has one image,
 *     byte for byte: loaded and saved again, it is the same bytes.
 *
 * The archive is for x86-64 in ELF only, with the System V calling convention, and position independent. It has the
 * instructions that every x86-64 processor has, SSE2 among them (today in cellpool_worst_case alone), no x87, MMX or AVX,
 * and needs nothing but memset. Each function is in a section of its own, so that the linker may drop what is not called
 * (--gc-sections).
 *
 * Interrupts: the archive may use the red zone, the 128 bytes below the stack pointer that the calling convention gives to
 * a function that calls no other (today no function does, another version may). An interrupt handler on the same stack
 * must leave these bytes alone: give it a stack of its own (on x86-64 an entry of the interrupt stack table), or let it
 * step over them first. It must keep the xmm registers that it uses itself, and not use a pool that is in use.
 *
 * Cost and stack. "Linear" is in N; bytes of stack are those below the stack pointer at the call, the return address
 * included: measured on painted stacks by compare/stack/stack.c, on the longest way through each function, and rounded
 * up. What memset takes comes on top, where it is not a leaf.
 *
 *   function                     cost                                               stack, bytes
 *   cellpool_fresh               linear                                             96
 *   cellpool_copy                constant                                           32
 *   cellpool_clear               constant                                           32
 *   cellpool_new                 constant where a cell is free; else it collects:   192
 *                                linear
 *   cellpool_point               constant where a cell is free; else it collects:   192
 *                                linear
 *   cellpool_left                constant                                           32
 *   cellpool_right               constant                                           32
 *   cellpool_setleft             constant                                           32
 *   cellpool_setright            constant                                           32
 *   cellpool_setvalue            constant                                           32
 *   cellpool_value               constant                                           32
 *   cellpool_east                constant                                           32
 *   cellpool_north               constant                                           32
 *   cellpool_same                constant                                           32
 *   cellpool_collect             linear                                             160
 *   cellpool_collect_tally       linear                                             192
 *   cellpool_collect_stack       linear, and linear in (checks + 1) * stack_len     192
 *   cellpool_worst_case          linear                                             96
 *   cellpool_collect_recursive   linear                                             6144
 *   cellpool_save                linear, and linear in scratch_len                  320
 *   cellpool_load                linear                                             448
 *   cellpool_check_image         linear in the cells of the image                   256
 *   cellpool_occupancy           constant                                           32
 */
#ifndef CELLPOOL_H
#define CELLPOOL_H

#include <stddef.h>
#include <stdint.h>

/*
 * The version of this interface. Where a signature, an answer, a refusal, a word of a pool or a byte of an image changes
 * for what was there before, the major number moves: look again at what was built or saved with another one. Where
 * functions or constants only come beside those that were there, the minor number moves. Everything else (speed, less
 * stack, comments) moves the patch number. CELLPOOL_VERSION is one number for #if: 10000 * major + 100 * minor + patch.
 *
 * 2.0.0: cellpool_load and cellpool_check_image refuse padded numbers with 12, which 1.0.0 accepted. What cellpool_save
 * writes has not changed, and is accepted by both.
 * 3.0.0: cellpool_collect_stack takes no stack word for a cell with two equal links, where 2.0.0 took one: *enough may be
 * 1 where it was 0. A stack that was enough still is, and the cells kept are the same.
 * 3.1.0: cellpool_worst_case and CELLPOOL_STACK come beside what 3.0.0 has.
 * 3.1.1: collections by link reversal are faster on most pools.
 * 4.0.0: cellpool_collect_stack has an argument more, checks, and where every word holds a cell it checks these cells
 * before link reversal takes over: *enough may be 1 where it was 0. A stack that was enough still is, with 0 checks, and
 * the cells kept are the same.
 * 5.0.0: the length of a pool may be 1 to 3 words more than 18 + 4 * N, which was refused with 1, and these words stay as
 * they are. cellpool_fresh has an argument more, leftover, and CELLPOOL_CELLS comes. Nothing else has changed for lengths
 * that were accepted, nor in images.
 * 6.0.0: cellpool_occupancy rounds to the nearest percent, and a half to the even one, where 5.0.0 rounded down: the
 * percent may be one higher, and 100 no longer says that every cell is kept. Nothing else has changed.
 * 7.0.0: a used cell may be a point, of state 5, which 6.0.0 refuses as malformed: cellpool_point, cellpool_east and
 * cellpool_north come. Where a register holds a point, the functions of links refuse with 13. A point takes one visit, so
 * that visits may be fewer than three for each cell kept. In an image each cell begins with its kind, and only this form
 * is read. An image with cells that was saved before is refused, with the number that its bytes give; but with bytes behind
 * it, it may be taken for another plan. Save such plans anew. CELLPOOL_IMAGE_BYTES is larger. For pools without points
 * nothing has changed but their images.
 * 7.0.1: no function has changed; with cellpool_save it is said what equal images tell of two pools.
 */
#define CELLPOOL_VERSION_MAJOR 7
#define CELLPOOL_VERSION_MINOR 0
#define CELLPOOL_VERSION_PATCH 1
#define CELLPOOL_VERSION (10000 * CELLPOOL_VERSION_MAJOR + 100 * CELLPOOL_VERSION_MINOR + CELLPOOL_VERSION_PATCH)

/* An answer that is not looked at is a warning, where the compiler knows how. */
#if defined(__GNUC__)
#define CELLPOOL_MUST_USE __attribute__((warn_unused_result))
#else
#define CELLPOOL_MUST_USE
#endif

#ifdef __cplusplus
extern "C" {
#endif

/* Limits. */
#define CELLPOOL_MOST_CELLS 4000u
#define CELLPOOL_REGISTERS 16u
/* Most cells of a pool for cellpool_collect_recursive. */
#define CELLPOOL_MOST_RECURSIVE 64u

/* The fewest words of a pool of n cells; the cells of a pool of len words, as cellpool_fresh answers them, and 0 where it
   refuses that length. len is evaluated up to three times. */
#define CELLPOOL_WORDS(n) (18u + 4u * (n))
#define CELLPOOL_CELLS(len)                                                                                            \
    ((len) < CELLPOOL_WORDS(1u) || (len) >= CELLPOOL_WORDS(CELLPOOL_MOST_CELLS + 1u) ? 0u : ((len) - 18u) / 4u)
/* Words of scratch that cellpool_save needs for a pool of n cells. */
#define CELLPOOL_SCRATCH(n) (2u * (n))
/* Words of stack with which cellpool_collect_stack makes no check on any pool of n cells, and as many as the pool of
   cellpool_worst_case takes. 0 for two cells and fewer (an array of C has one element at least). n is evaluated twice. */
#define CELLPOOL_STACK(n) ((n) == 0 ? 0u : ((n) - 1u) / 2u)
/* Bytes that hold every image of k cells, whoever wrote it: K and 16 registers of at most 2 bytes, and a cell of 16, since
   a point has a kind of 1 byte and x, y and a value of 5 (a pair has links of 2). */
#define CELLPOOL_IMAGE_BYTES(k) (34u + 16u * (k))

/* Answers. */
enum {
    CELLPOOL_OK = 0,
    /* The length is not 18 + 4 * N and none to three more, with N from 1 to 4,000 (it is below 22 or above 16,021), or
       word 0 is not that N; for cellpool_check_image and cellpool_occupancy: N is not from 1 to 4,000, or more cells are
       kept than there are. */
    CELLPOOL_REFUSED_SIZE = 1,
    /* A register number is 16 or more. */
    CELLPOOL_REFUSED_REGISTER = 2,
    /* A register that is read, a link, the head or the pool is malformed: the words are damaged. */
    CELLPOOL_REFUSED_MALFORMED = 3,
    /* The register is nil where a cell is needed. */
    CELLPOOL_REFUSED_NIL = 4,
    /* No cell is free, also after a collection. */
    CELLPOOL_REFUSED_FULL = 5,
    /* The bytes end before the image does. */
    CELLPOOL_REFUSED_TRUNCATED = 6,
    /* A number of the image is 2^32 or more, or longer than five bytes. */
    CELLPOOL_REFUSED_OUT_OF_RANGE = 7,
    /* A register or a link of the image is above its number of cells. */
    CELLPOOL_REFUSED_LINK_RANGE = 8,
    /* The image has more cells than the pool. */
    CELLPOOL_REFUSED_TOO_MANY_CELLS = 9,
    /* The scratch or the output is too short. */
    CELLPOOL_REFUSED_NO_ROOM = 10,
    /* The pool has more than 64 cells: too many for the recursive marker. */
    CELLPOOL_REFUSED_TOO_LARGE = 11,
    /* A number of the image is padded: its last byte is 00, and it is longer than that byte. */
    CELLPOOL_REFUSED_PADDED = 12,
    /* The cell is of the other kind: a point where a pair is needed, or a pair where a point is. */
    CELLPOOL_REFUSED_KIND = 13,
    /* A kind of the image is neither 0 (a pair) nor 1 (a point). */
    CELLPOOL_REFUSED_KIND_NUMBER = 14
};

/* An answer in words, for logs and consoles. */
static inline const char *cellpool_refusal_text(uint32_t answer) {
    switch (answer) {
    case CELLPOOL_OK: return "done";
    case CELLPOOL_REFUSED_SIZE: return "the size does not fit";
    case CELLPOOL_REFUSED_REGISTER: return "there is no such register";
    case CELLPOOL_REFUSED_MALFORMED: return "the pool is malformed";
    case CELLPOOL_REFUSED_NIL: return "the register is nil";
    case CELLPOOL_REFUSED_FULL: return "no cell is free";
    case CELLPOOL_REFUSED_TRUNCATED: return "the image is cut off";
    case CELLPOOL_REFUSED_OUT_OF_RANGE: return "a number of the image is too large";
    case CELLPOOL_REFUSED_LINK_RANGE: return "a link of the image leads nowhere";
    case CELLPOOL_REFUSED_TOO_MANY_CELLS: return "the image has more cells than the pool";
    case CELLPOOL_REFUSED_NO_ROOM: return "the scratch or the output is too short";
    case CELLPOOL_REFUSED_TOO_LARGE: return "the pool is too large for the recursive marker";
    case CELLPOOL_REFUSED_PADDED: return "a number of the image is padded";
    case CELLPOOL_REFUSED_KIND: return "the cell is of the other kind";
    case CELLPOOL_REFUSED_KIND_NUMBER: return "a kind of the image is unknown";
    default: return "no answer of this library";
    }
}

/* Make the words a pool: N by the length alone, all registers nil, all cells free. *cells becomes N, and *leftover the
   number of words left over, 0 to 3, the last ones of the block. Refused: 1. */
CELLPOOL_MUST_USE
uint32_t cellpool_fresh(uint32_t *words, size_t len, uint32_t *cells, uint32_t *leftover);

/* Register r gets the content of register a. Refused: 1, 2, 3. */
CELLPOOL_MUST_USE
uint32_t cellpool_copy(uint32_t *words, size_t len, uint32_t r, uint32_t a);

/* Register r becomes nil, whatever it held. Refused: 1, 2. */
CELLPOOL_MUST_USE
uint32_t cellpool_clear(uint32_t *words, size_t len, uint32_t r);

/* Register r gets a new pair with the link in register a as its left, that in b as its right, and value v. Where no
   free cell is left it collects first, with the old content of r still a root. *visits becomes the visits of that
   collection, 0 where there was none. Refused with 5 it has collected, and every word is as before: all cells were
   reached. Refused: 1, 2, 3, 5. */
CELLPOOL_MUST_USE
uint32_t cellpool_new(uint32_t *words, size_t len, uint32_t r, uint32_t a, uint32_t b, uint32_t v, uint32_t *visits);

/* Register r gets a new point with value v and these x and y, which may be any numbers. No register is read; a collection
   and *visits are as with cellpool_new. Refused: 1, 2, 3, 5. */
CELLPOOL_MUST_USE
uint32_t cellpool_point(uint32_t *words, size_t len, uint32_t r, uint32_t v, uint32_t x, uint32_t y, uint32_t *visits);

/* Register r gets the left (right) link of the pair in register a. Refused: 1, 2, 3 (the register), 4, 13 (a point), 3
   (the link). */
CELLPOOL_MUST_USE
uint32_t cellpool_left(uint32_t *words, size_t len, uint32_t r, uint32_t a);
CELLPOOL_MUST_USE
uint32_t cellpool_right(uint32_t *words, size_t len, uint32_t r, uint32_t a);

/* The left (right) link of the pair in register a becomes the content of register b. Refused: 1, 2, 3, 4, 13 (a point). */
CELLPOOL_MUST_USE
uint32_t cellpool_setleft(uint32_t *words, size_t len, uint32_t a, uint32_t b);
CELLPOOL_MUST_USE
uint32_t cellpool_setright(uint32_t *words, size_t len, uint32_t a, uint32_t b);

/* The value of the cell in register a, a pair or a point, becomes v. Refused: 1, 2, 3, 4. */
CELLPOOL_MUST_USE
uint32_t cellpool_setvalue(uint32_t *words, size_t len, uint32_t a, uint32_t v);

/* *value becomes the value of the cell in register a, a pair or a point. Refused: 1, 2, 3, 4. */
CELLPOOL_MUST_USE
uint32_t cellpool_value(const uint32_t *words, size_t len, uint32_t a, uint32_t *value);

/* *x (*y) becomes that of the point in register a. Refused: 1, 2, 3, 4, 13 (a pair). */
CELLPOOL_MUST_USE
uint32_t cellpool_east(const uint32_t *words, size_t len, uint32_t a, uint32_t *x);
CELLPOOL_MUST_USE
uint32_t cellpool_north(const uint32_t *words, size_t len, uint32_t a, uint32_t *y);

/* *same becomes 1 if registers a and b hold the same cell or are both nil, else 0. Refused: 1, 2, 3. */
CELLPOOL_MUST_USE
uint32_t cellpool_same(const uint32_t *words, size_t len, uint32_t a, uint32_t b, uint32_t *same);

/* Keep the cells that the registers reach, free all others, and chain the free cells in ascending order. Marks by
   link reversal, with no further memory. *kept becomes the cells kept, *visits three for each pair kept and one for each
   point. Refused: 1, 3. */
CELLPOOL_MUST_USE
uint32_t cellpool_collect(uint32_t *words, size_t len, uint32_t *kept, uint32_t *visits);

/* As cellpool_collect; accepted, it also adds 1 to *collections and the visits to *total_visits, each stopping at
   4,294,967,295. Refused: 1, 3. */
CELLPOOL_MUST_USE
uint32_t cellpool_collect_tally(uint32_t *words, size_t len, uint32_t *collections, uint32_t *total_visits,
                                uint32_t *kept, uint32_t *visits);

/* As cellpool_collect, marking with a stack of stack_len lent words, which end 0. Where the links of a cell lead to two
   different cells, both not marked yet, a word holds the right one until it is its turn; two equal links take no word, and
   neither does a link beside nil or beside one to a marked cell; a point has no links. Pool and *kept are those of
   cellpool_collect, however few the words.
   Where a word is to be taken and each one holds a cell, a check looks at these cells, the newest first. From such a cell
   it goes on, and marks, while one way alone leads on: one link to an unmarked cell, or two equal ones. Where no way leads
   on, the word is given back. Where two lead on, the word stays, and holds the cell that was reached, whose two links stay
   unmarked. If a word was given back, marking goes on with the stack; if none was (also where stack_len is 0 and there was
   none to look at), all marks are cleared and link reversal does the work.
   *checks becomes the number of checks, a last one in vain included. *enough becomes 0 if a check was in vain, else 1, also
   where there was no check. There is no check exactly if there are words for all cells that have to be held at once:
   (N - 1) / 2 words, rounded down (CELLPOOL_STACK), are enough for that on every pool of N cells. No collection makes more
   checks than that either. A check takes time linear in stack_len, and in the cells that it marks, so a collection is linear
   in N and in (*checks + 1) * stack_len: linear in N for a fixed number of words such as ten; but with N / 4 words there are
   pools for which it looks at some N * N / 16 entries. Nothing is promised of how *checks and *enough move as the stack
   grows: there are pools where two words make more checks than one, and pools for which two words are enough and three are
   not. Refused: 1, 3. */
CELLPOOL_MUST_USE
uint32_t cellpool_collect_stack(uint32_t *words, size_t len, uint32_t *stack, size_t stack_len, uint32_t *kept,
                                uint32_t *enough, uint32_t *checks);

/* Make the words a pool for which cellpool_collect_stack takes the most stack words, where it has them: N by the length
   alone, as with cellpool_fresh, all cells pairs and reached from register 0, which holds cell 1, registers 1 to 15 nil,
   the head 0, all values 0.
   If i is odd, the left link of cell i is i + 2 and the right one i + 1, each nil where that is above N; if i is even, both
   are nil. *entries becomes the words held, (N - 1) / 2, rounded down: no well-formed pool of N cells takes more, whatever
   its registers hold, so with a stack of that many words (CELLPOOL_STACK) there is no check. With fewer words, but one at
   least, this pool takes (*entries - 1) / stack_len checks, rounded down, and they are enough, since the held cells are
   leaves; with no word, and three cells or more, it takes one check, and that is in vain. Refused: 1. */
CELLPOOL_MUST_USE
uint32_t cellpool_worst_case(uint32_t *words, size_t len, uint32_t *entries);

/* As cellpool_collect, marking recursively: for the test bench and pools of at most 64 cells. Refused: 1, 11, 3. */
CELLPOOL_MUST_USE
uint32_t cellpool_collect_recursive(uint32_t *words, size_t len, uint32_t *kept, uint32_t *visits);

/* Write an image of the cells that the registers reach to the front of out. *bytes becomes its length; bytes of out
   behind it stay, and so do the words. An image is the number of its cells, the 16 registers, and for each cell its kind
   (0 a pair, 1 a point), its left and right, or x and y, and its value. scratch has 2 * N words or more; once the pool is
   found well-formed, all of it ends 0, also where the output is then too short.
   Plans can be compared by their images. Those of two pools, of any sizes, are equal exactly if every list of
   cellpool_copy, cellpool_clear, cellpool_left, cellpool_right, cellpool_value, cellpool_east, cellpool_north and
   cellpool_same gives equal answers on both, each started from its pool as it is. What an image does not show is what no
   such list tells: the numbers of the cells, those that the registers do not reach, and the words left over. So a
   collection changes no byte of it. Refused: 1, 10 (the scratch), 3, 10 (the output). */
CELLPOOL_MUST_USE
uint32_t cellpool_save(const uint32_t *words, size_t len, uint32_t *scratch, size_t scratch_len, uint8_t *out,
                       size_t out_len, size_t *bytes);

/* Make the words the pool of an image, N by their length alone, as with cellpool_fresh. *rest becomes the place of the
   first byte behind the image; refused, it becomes bytes_len. Refused: 1, then number by number 6, 7, 12, and 9 (the
   number of cells), 8 (a register or a link) or 14 (a kind). */
CELLPOOL_MUST_USE
uint32_t cellpool_load(uint32_t *words, size_t len, const uint8_t *bytes, size_t bytes_len, size_t *rest);

/* Answer what cellpool_load would for a pool of n cells, and write nothing. Refused: 1, then number by number 6, 7, 12,
   and 9, 8 or 14. */
CELLPOOL_MUST_USE
uint32_t cellpool_check_image(const uint8_t *bytes, size_t bytes_len, uint32_t n);

/* *percent becomes 100 * kept / n, rounded to the nearest whole number, and an exact half to the even one: 1 of 3 is
   33, 2 of 3 is 67, 1 of 200 (0.5) is 0, and 3 of 200 (1.5) is 2. If n is 200 or more, 0 does not say that no cell is
   kept, nor 100 that every one is: 20 of 4,000 (0.5) is 0, and 3,980 of 4,000 (99.5) is 100. Refused: 1. */
CELLPOOL_MUST_USE
uint32_t cellpool_occupancy(uint32_t kept, uint32_t n, uint32_t *percent);

#ifdef __cplusplus
}
#endif

#endif
