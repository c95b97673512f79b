/* Collectors beside each other: each builds a graph of cells with two links in its own heap, and collects it. */
#ifndef PEERS_H
#define PEERS_H

#include <stdint.h>

enum { CELLS = 4000 };

/* The links of cells 1 to CELLS, 0 for nil; the first cell is the only root. */
typedef struct {
    const char *name;
    uint32_t left[CELLS + 1], right[CELLS + 1];
} Graph;

typedef struct {
    const char *name;
    /* Build the graph, and drop the one before. */
    void (*build)(const Graph *graph);
    /* A whole collection. */
    void (*collect)(void);
    /* How many cells of the graph were kept. */
    uint32_t (*kept)(void);
} Peer;

extern const Peer tinyscheme;

#endif
