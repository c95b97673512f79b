/* A flight plan that a board keeps in a cell pool: see firmware.c. */
#ifndef FIRMWARE_H
#define FIRMWARE_H

#include "cellpool.h"

#ifdef __cplusplus
extern "C" {
#endif

/* The pool's memory is what the board's linker leaves for it: here 470 bytes, which are 117 words and two bytes more. */
#define PLAN_BYTES 470u
#define PLAN_WORDS (PLAN_BYTES / 4u)

/* Cells of the pool: a waypoint takes two, a pair and the point of its place, an entry of the log one. 117 words have 24
   cells, and three are left over. */
#define PLAN_CELLS CELLPOOL_CELLS(PLAN_WORDS)
#if PLAN_CELLS == 0
#error "no pool has so many words"
#endif

typedef enum {
    PLAN_OK,
    /* The plan has no further waypoint. */
    PLAN_END,
    /* There is no room for a further waypoint; the plan is as it was. */
    PLAN_FULL,
    /* Memory was damaged and no stored plan was good: the plan is empty. */
    PLAN_LOST,
    /* A call was refused for a reason that these functions shut out: an error in the program. */
    PLAN_FAULT
} plan_code;

/* Where a waypoint is, in the board's own units. */
typedef struct {
    uint32_t east, north, metres;
} plan_place;

/* A stored plan: an image carries no checksum of its own. */
typedef struct {
    uint32_t sequence, bytes, crc;
    uint8_t image[CELLPOOL_IMAGE_BYTES(PLAN_CELLS)];
} plan_slot;

/* The board's memory: the pool, and two slots of storage that keeps its content. The last plan_leftover words are no part
   of the pool: the board may keep something of its own there. */
extern uint32_t plan_words[PLAN_WORDS];
extern plan_slot plan_slots[2];
/* The pool's cells and the words left over, once there is a plan. */
extern uint32_t plan_cells, plan_leftover;
/* How often the plan was taken from a slot, and how often the log was dropped to make room. */
extern uint32_t plan_recoveries, plan_drops;

/* An empty plan and an empty log. */
plan_code plan_begin(void);
/* Put a waypoint before the plan. */
plan_code plan_add(uint32_t waypoint, plan_place place);
/* Take the first waypoint from the plan and enter it in the log. */
plan_code plan_next(uint32_t *waypoint, plan_place *place);
/* The percent of the pool's cells that plan and log take, for the ground display: the nearest whole number, and of a
   half the even one. It is written only where the answer is PLAN_OK. */
plan_code plan_occupancy(uint32_t *percent);
/* Store plan and log in the older slot. */
plan_code plan_store(void);
/* Are plan and log others than those of the newest slot, or is that not good? 1 or 0; written only where the answer is
   PLAN_OK. Storage that wears is spared where nothing has changed. */
plan_code plan_changed(uint32_t *changed);
/* Take plan and log from the newest slot that is good. */
plan_code plan_recover(void);

#ifdef __cplusplus
}
#endif

#endif
