/*
 * Draws a saved image: reads it from standard input, checks and loads it, and writes it as a graph for Graphviz.
 *
 *   ./draw < plan.image | dot -Tsvg > plan.svg
 *
 * A pair is a box with its number in the image, its value, and a field for each link, left before right; a field of a nil
 * link has a stroke. A point is a box with round corners, and its fields are x and y. Left links are solid, right links
 * dashed. Registers that hold a cell are the plain names r0 to r15.
 * The status is 0, or 1 where the input is no image.
 */
#include "cellpool.h"

#include <stdio.h>

#define CELLS CELLPOOL_MOST_CELLS

/* The states of used cells. */
enum { PAIR = 0, POINT = 5 };

static uint32_t words[CELLPOOL_WORDS(CELLS)];
/* Any image fits, and one byte more, which tells that there are bytes behind the longest one too. */
static uint8_t bytes[CELLPOOL_IMAGE_BYTES(CELLS) + 1u];

/* The four words of cell i. */
static const uint32_t *cell(uint32_t i) { return words + CELLPOOL_WORDS(i - 1); }

static int draw(size_t count) {
    size_t rest = 0;
    uint32_t i, answer = cellpool_check_image(bytes, count, CELLS);
    if (answer == CELLPOOL_OK) answer = cellpool_load(words, CELLPOOL_WORDS(CELLS), bytes, count, &rest);
    if (answer != CELLPOOL_OK) {
        fprintf(stderr, "draw: refused with %lu: %s\n", (unsigned long)answer, cellpool_refusal_text(answer));
        return 1;
    }
    if (rest < count) fprintf(stderr, "draw: there are bytes behind the image\n");
    puts("digraph pool {");
    puts("  node [shape=record, fontname=\"sans-serif\", fontsize=11];");
    for (i = 0; i < CELLPOOL_REGISTERS; i++) {
        if (words[2 + i] == 0) continue;
        printf("  r%lu [shape=plaintext];\n", (unsigned long)i);
        printf("  r%lu -> c%lu;\n", (unsigned long)i, (unsigned long)words[2 + i]);
    }
    /* A loaded image has its cells in front, and only they are used. */
    for (i = 1; i <= CELLS && (cell(i)[0] == PAIR || cell(i)[0] == POINT); i++) {
        const uint32_t left = cell(i)[1], right = cell(i)[2], value = cell(i)[3];
        if (cell(i)[0] == POINT) {
            printf("  c%lu [shape=Mrecord, label=\"{cell %lu|%lu|{%lu|%lu}}\"];\n", (unsigned long)i, (unsigned long)i,
                   (unsigned long)value, (unsigned long)left, (unsigned long)right);
            continue;
        }
        printf("  c%lu [label=\"{cell %lu|%lu|{<l>%s|<r>%s}}\"];\n", (unsigned long)i, (unsigned long)i, (unsigned long)value,
               left == 0 ? "/" : "", right == 0 ? "/" : "");
        if (left != 0) printf("  c%lu:l -> c%lu;\n", (unsigned long)i, (unsigned long)left);
        if (right != 0) printf("  c%lu:r -> c%lu [style=dashed];\n", (unsigned long)i, (unsigned long)right);
    }
    puts("}");
    return 0;
}

int main(void) {
    size_t count = fread(bytes, 1, sizeof bytes, stdin);
    if (ferror(stdin)) {
        perror("draw: standard input");
        return 1;
    }
    if (draw(count) != 0) return 1;
    if (fflush(stdout) != 0 || ferror(stdout)) {
        perror("draw: standard output");
        return 1;
    }
    return 0;
}
