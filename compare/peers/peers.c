/*
 * The library's collections beside collectors that people use today, on the same graphs of 4,000 cells, in one run: the
 * processor time of a whole collection in microseconds, the least of several samples, which take turns. The script `run`
 * beside this file builds and runs it.
 */
#include "cellpool.h"
#include "peers.h"

#define GC_THREADS /* for the number of threads that mark */
#include <gc.h>
#include <gc/gc_mark.h>
#include <lauxlib.h>
#include <lua.h>
#include <stdio.h>
#include <stdlib.h>
#include <string.h>
#include <time.h>

/* OTHERS: cells that a collector may keep besides, where an old number on the stack looks like a pointer to an earlier graph. */
enum { LEN = CELLPOOL_WORDS(CELLS), SAMPLES = 25, REPEATS = 40, OTHERS = CELLS };

/* The library. */
static uint32_t *words, *stack;

static void library_build(const Graph *graph) {
    memset(words, 0, LEN * sizeof *words);
    words[0] = CELLS;
    words[2] = 1;
    for (uint32_t i = 1; i <= CELLS; i++) {
        uint32_t *cell = words + CELLPOOL_WORDS(i - 1);
        cell[1] = graph->left[i];
        cell[2] = graph->right[i];
    }
}

static void expect(uint32_t answer, uint32_t expected) {
    if (answer != expected) {
        fprintf(stderr, "peers: %s\n", cellpool_refusal_text(answer));
        exit(1);
    }
}

static uint32_t kept;

static void reversal_collect(void) {
    uint32_t visits;
    expect(cellpool_collect(words, LEN, &kept, &visits), CELLPOOL_OK);
}

static void stack_collect(void) {
    uint32_t enough, checks;
    expect(cellpool_collect_stack(words, LEN, stack, CELLS, &kept, &enough, &checks), CELLPOOL_OK);
}

static uint32_t library_kept(void) { return kept; }

/* The test of the pool alone: two collections that are refused, for a link of the first cell and for one of the last. In
   whatever direction the test goes, both together look at each cell about once. */
static void test_alone(void) {
    static const uint32_t cells[] = {1, CELLS};
    uint32_t none, visits;
    for (int i = 0; i < 2; i++) {
        uint32_t *right = words + CELLPOOL_WORDS(cells[i] - 1) + 2, link = *right;
        *right = CELLS + 1;
        expect(cellpool_collect(words, LEN, &none, &visits), CELLPOOL_REFUSED_MALFORMED);
        *right = link;
    }
}

/* Lua: a cell is a table with two places. */
static lua_State *lua;

static void lua_build(const Graph *graph) {
    if (lua == NULL && (lua = luaL_newstate()) == NULL) exit(1);
    lua_gc(lua, LUA_GCSTOP);
    lua_settop(lua, 0);
    lua_createtable(lua, CELLS, 0);
    for (int i = 1; i <= CELLS; i++) {
        lua_createtable(lua, 2, 0);
        lua_rawseti(lua, 1, i);
    }
    for (int i = 1; i <= CELLS; i++) {
        const uint32_t links[2] = {graph->left[i], graph->right[i]};
        lua_rawgeti(lua, 1, i);
        for (int side = 0; side < 2; side++) {
            if (links[side] == 0) continue;
            lua_rawgeti(lua, 1, links[side]);
            lua_rawseti(lua, 2, side + 1);
        }
        lua_settop(lua, 1);
    }
    lua_rawgeti(lua, 1, 1);
    lua_remove(lua, 1);
}

static void lua_collect(void) { lua_gc(lua, LUA_GCCOLLECT); }

/* By the bytes in use: a table of two places takes 56 and 2 * 16. */
static uint32_t lua_kept(void) {
    static long empty;
    const long bytes = 1024L * lua_gc(lua, LUA_GCCOUNT) + lua_gc(lua, LUA_GCCOUNTB);
    if (empty == 0) {
        lua_State *other = luaL_newstate();
        if (other == NULL) exit(1);
        lua_gc(other, LUA_GCCOLLECT);
        empty = 1024L * lua_gc(other, LUA_GCCOUNT) + lua_gc(other, LUA_GCCOUNTB);
        lua_close(other);
    }
    return (uint32_t)((bytes - empty) / 88);
}

/* The collector of Boehm, Demers and Weiser: a cell is a block of two pointers. */
typedef struct Block {
    struct Block *left, *right;
} Block;

static Block *volatile block_root;
static Block **blocks;

static void boehm_build(const Graph *graph) {
    GC_disable();
    for (int i = 1; i <= CELLS; i++) blocks[i] = (Block *)GC_MALLOC(sizeof(Block));
    for (int i = 1; i <= CELLS; i++) {
        blocks[i]->left = graph->left[i] == 0 ? NULL : blocks[graph->left[i]];
        blocks[i]->right = graph->right[i] == 0 ? NULL : blocks[graph->right[i]];
    }
    block_root = blocks[1];
    GC_enable();
}

/* Nothing of an earlier graph stays on the stack, where the collector would take it for a root. */
static __attribute__((noinline)) void clear_stack(void) {
    volatile unsigned char room[1 << 15];
    for (size_t i = 0; i < sizeof room; i++) room[i] = 0;
}

static void boehm_collect(void) { GC_gcollect(); }

static void GC_CALLBACK count_block(void *object, size_t bytes, void *count) {
    (void)object;
    (void)bytes;
    ++*(uint32_t *)count;
}

static void *GC_CALLBACK count_blocks(void *count) {
    GC_enumerate_reachable_objects_inner(count_block, count);
    return NULL;
}

static uint32_t boehm_kept(void) {
    uint32_t count = 0;
    GC_call_with_alloc_lock(count_blocks, &count);
    return count;
}

static const Peer library = {"library, reversal", library_build, reversal_collect, library_kept};
static const Peer with_stack = {"library, stack", library_build, stack_collect, library_kept};
static const Peer tested = {"library, its test alone", library_build, test_alone, NULL};
static const Peer lua_peer = {"Lua 5.4", lua_build, lua_collect, lua_kept};
static const Peer boehm = {"Boehm", boehm_build, boehm_collect, boehm_kept};

/* The graphs. */
static uint32_t state = 7;

static uint32_t below(uint32_t limit) {
    state ^= state << 13;
    state ^= state >> 17;
    state ^= state << 5;
    return state % limit;
}

static uint32_t within(uint32_t link) { return link <= CELLS ? link : 0; }

static void make(Graph *graph, const char *name) {
    graph->name = name;
    for (uint32_t i = 1; i <= CELLS; i++) {
        uint32_t left = within(i + 1), right = 0;
        if (strcmp(name, "balanced tree") == 0) left = within(2 * i), right = within(2 * i + 1);
        if (strcmp(name, "chain of equal links") == 0) right = left;
        if (strcmp(name, "random graph") == 0) left = 1 + below(CELLS), right = 1 + below(CELLS);
        graph->left[i] = left;
        graph->right[i] = right;
    }
}

/* The cells that are reached, by passes until nothing is added. */
static uint32_t reached(const Graph *graph) {
    static unsigned char seen[CELLS + 1];
    uint32_t count = 1, before;
    memset(seen, 0, sizeof seen);
    seen[1] = 1;
    do {
        before = count;
        for (uint32_t i = 1; i <= CELLS; i++) {
            const uint32_t links[2] = {graph->left[i], graph->right[i]};
            for (int side = 0; seen[i] && side < 2; side++) {
                if (links[side] == 0 || seen[links[side]]) continue;
                seen[links[side]] = 1;
                count++;
            }
        }
    } while (count != before);
    return count;
}

static double microseconds(void) {
    struct timespec time;
    clock_gettime(CLOCK_THREAD_CPUTIME_ID, &time);
    return 1e6 * (double)time.tv_sec + 1e-3 * (double)time.tv_nsec;
}

int main(void) {
    static const Peer *const peers[] = {&library, &with_stack, &tested, &tinyscheme, &lua_peer, &boehm};
    static const char *const names[] = {"balanced tree", "left chain", "chain of equal links", "random graph"};
    enum { PEERS = sizeof peers / sizeof *peers };
    static double times[PEERS][SAMPLES];
    /* What is large stands in memory that Boehm's collector does not look at; it marks with one thread, as the others do. */
    Graph *const graph = (Graph *)malloc(sizeof *graph);
    words = (uint32_t *)malloc(LEN * sizeof *words);
    stack = (uint32_t *)malloc(CELLS * sizeof *stack);
    blocks = (Block **)malloc((CELLS + 1) * sizeof *blocks);
    if (graph == NULL || words == NULL || stack == NULL || blocks == NULL) return 1;
    GC_set_markers_count(1);
    GC_INIT();
    printf("| graph | cells reached |");
    for (int i = 0; i < PEERS; i++) printf(" %s |", peers[i]->name);
    printf("\n|---|---:|");
    for (int i = 0; i < PEERS; i++) printf("---:|");
    printf("\n");
    for (size_t shape = 0; shape < sizeof names / sizeof *names; shape++) {
        make(graph, names[shape]);
        const uint32_t count = reached(graph);
        for (int sample = 0; sample < SAMPLES; sample++) {
            for (int i = 0; i < PEERS; i++) {
                peers[i]->build(graph);
                clear_stack();
                peers[i]->collect();
                peers[i]->collect();
                if (peers[i]->kept != NULL && (peers[i]->kept() < count || peers[i]->kept() > count + OTHERS)) {
                    fprintf(stderr, "peers: %s keeps %u, not %u\n", peers[i]->name, peers[i]->kept(), count);
                    return 1;
                }
                const double start = microseconds();
                for (int repeat = 0; repeat < REPEATS; repeat++) peers[i]->collect();
                times[i][sample] = (microseconds() - start) / REPEATS;
            }
        }
        printf("| %s | %u |", graph->name, count);
        for (int i = 0; i < PEERS; i++) {
            double least = times[i][0];
            for (int sample = 1; sample < SAMPLES; sample++)
                if (times[i][sample] < least) least = times[i][sample];
            printf(" %.0f |", least);
        }
        printf("\n");
    }
    return 0;
}
