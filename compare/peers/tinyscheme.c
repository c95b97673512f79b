/* TinyScheme's collector, which cannot be called from outside: its source is taken in here. A cell of the graph is a pair. */
#include "peers.h"

#include "scheme.c"

static scheme interpreter;
static pointer root;
static long others;

static void build(const Graph *graph) {
    pointer *cells = (pointer *)malloc((CELLS + 1) * sizeof *cells);
    scheme *sc = &interpreter;
    if (sc->oblist == 0) {
        if (cells == NULL || !scheme_init(sc)) abort();
        sc->args = sc->value = sc->NIL; /* as a program that is evaluated sets them */
    }
    root = car(sc->sink) = sc->NIL; /* the sink holds what was made last */
    gc(sc, sc->NIL, sc->NIL);
    others = CELL_SEGSIZE * (sc->last_cell_seg + 1) - sc->fcells;
    while (sc->fcells < CELLS + 100)
        if (alloc_cellseg(sc, 1) != 1) abort();
    cells[0] = sc->NIL;
    for (int i = 1; i <= CELLS; i++) cells[i] = get_cell_x(sc, sc->NIL, sc->NIL);
    for (int i = 1; i <= CELLS; i++) {
        typeflag(cells[i]) = T_PAIR;
        car(cells[i]) = cells[graph->left[i]];
        cdr(cells[i]) = cells[graph->right[i]];
    }
    root = cells[1];
    free(cells);
}

static void collect(void) { gc(&interpreter, root, interpreter.NIL); }

static uint32_t kept(void) {
    return (uint32_t)(CELL_SEGSIZE * (interpreter.last_cell_seg + 1) - interpreter.fcells - others);
}

const Peer tinyscheme = {"TinyScheme", build, collect, kept};
