/*
 * A flight plan in a cell pool, as a board keeps it: static memory only, no standard library, every answer looked at.
 *
 * The plan is a list of waypoints. A waypoint is a pair: its value is the waypoint's number, its left link leads to a point,
 * its place, with east and north as x and y and the height in metres as value, and its right link to the next waypoint. The
 * log is a list of the waypoints flown, newest first.
 *
 * What is done about a refusal:
 *   no cell is free (5)       the pool has collected already: drop the log, which is only good to have, and try once more
 *   malformed or size (3, 1), memory was damaged: take the newest stored plan that is good, and try once more
 *   or of the other kind (13)
 *   nil (4)                   the plan has ended
 *   an image (6 to 9, 12, 14) that stored plan is not good, whatever its checksum: take the older one
 *   anything else             an error in this program: tell the caller, and change nothing
 *
 * Build, with a main of your own in the place of firmware_main.c:
 *   cc firmware.c firmware_main.c $(pkg-config --cflags --libs cellpool) -o firmware
 */
#include "firmware.h"

/* Registers: the plan, the log, one for the work of a function, which is nil between calls, and one that stays nil. */
enum { PLAN, LOG, PLACE, NIL };

#define LEN PLAN_WORDS

uint32_t plan_words[PLAN_WORDS];
plan_slot plan_slots[2];
uint32_t plan_cells, plan_leftover, plan_recoveries, plan_drops;

static uint32_t scratch[CELLPOOL_SCRATCH(PLAN_CELLS)];

/* CRC-32 (IEEE 802.3) of a slot's image. */
static uint32_t crc_of(const uint8_t *bytes, uint32_t count) {
    uint32_t crc = 0xFFFFFFFFu, i, bit;
    for (i = 0; i < count; i++) {
        crc ^= bytes[i];
        for (bit = 0; bit < 8; bit++) crc = crc & 1u ? crc >> 1 ^ 0xEDB88320u : crc >> 1;
    }
    return ~crc;
}

/* One try of each function: the first answer that is a refusal, or 0. */
static uint32_t try_add(uint32_t waypoint, plan_place place) {
    uint32_t visits, answer = cellpool_point(plan_words, LEN, PLACE, place.metres, place.east, place.north, &visits);
    if (answer == CELLPOOL_OK) answer = cellpool_new(plan_words, LEN, PLAN, PLACE, PLAN, waypoint, &visits);
    return answer;
}

static uint32_t try_next(uint32_t *waypoint, plan_place *place) {
    uint32_t visits, answer = cellpool_value(plan_words, LEN, PLAN, waypoint);
    if (answer == CELLPOOL_OK) answer = cellpool_left(plan_words, LEN, PLACE, PLAN);
    if (answer == CELLPOOL_OK) answer = cellpool_east(plan_words, LEN, PLACE, &place->east);
    if (answer == CELLPOOL_OK) answer = cellpool_north(plan_words, LEN, PLACE, &place->north);
    if (answer == CELLPOOL_OK) answer = cellpool_value(plan_words, LEN, PLACE, &place->metres);
    /* Go on before the entry is made: it finds room, since nothing reaches the waypoint's two cells any more. */
    if (answer == CELLPOOL_OK) answer = cellpool_right(plan_words, LEN, PLAN, PLAN);
    if (answer == CELLPOOL_OK) answer = cellpool_clear(plan_words, LEN, PLACE);
    if (answer == CELLPOOL_OK) answer = cellpool_new(plan_words, LEN, LOG, NIL, LOG, *waypoint, &visits);
    return answer;
}

static uint32_t try_occupancy(uint32_t *percent) {
    uint32_t kept = 0, visits, answer = cellpool_collect(plan_words, LEN, &kept, &visits);
    /* The collection found that the pool has so many cells: it keeps no more. */
    if (answer == CELLPOOL_OK) answer = cellpool_occupancy(kept, PLAN_CELLS, percent);
    return answer;
}

/* Of two slots that were never written, the second. */
static int newer(void) { return plan_slots[0].sequence > plan_slots[1].sequence ? 0 : 1; }

static uint32_t try_store(plan_slot *slot, uint32_t sequence) {
    size_t bytes = 0;
    uint32_t answer;
    slot->sequence = 0; /* not good until all of it is written */
    answer = cellpool_save(plan_words, LEN, scratch, CELLPOOL_SCRATCH(PLAN_CELLS), slot->image, sizeof slot->image, &bytes);
    if (answer != CELLPOOL_OK) return answer;
    slot->bytes = (uint32_t)bytes;
    slot->crc = crc_of(slot->image, slot->bytes);
    slot->sequence = sequence;
    return CELLPOOL_OK;
}

static int is_good(const plan_slot *slot) {
    return slot->sequence != 0 && slot->bytes <= sizeof slot->image && crc_of(slot->image, slot->bytes) == slot->crc;
}

/* The same plan is the same image, byte for byte, wherever its cells stand and whatever was collected since. */
static uint32_t try_changed(uint32_t *changed) {
    static uint8_t image[CELLPOOL_IMAGE_BYTES(PLAN_CELLS)];
    const plan_slot *slot = &plan_slots[newer()];
    size_t bytes = 0, i;
    uint32_t answer = cellpool_save(plan_words, LEN, scratch, CELLPOOL_SCRATCH(PLAN_CELLS), image, sizeof image, &bytes);
    if (answer != CELLPOOL_OK) return answer;
    *changed = !is_good(slot) || slot->bytes != bytes;
    for (i = 0; i < bytes && *changed == 0; i++) *changed = slot->image[i] != image[i];
    return CELLPOOL_OK;
}

/* What to do about an answer: PLAN_OK where the try is to be made again, and otherwise what the caller is told. */
static plan_code remedy(uint32_t answer) {
    uint32_t is_empty = 0;
    switch (answer) {
    case CELLPOOL_REFUSED_FULL:
        if (cellpool_same(plan_words, LEN, LOG, NIL, &is_empty) != CELLPOOL_OK) return PLAN_FAULT;
        if (is_empty) return PLAN_FULL;
        plan_drops++;
        return cellpool_clear(plan_words, LEN, LOG) == CELLPOOL_OK ? PLAN_OK : PLAN_FAULT;
    case CELLPOOL_REFUSED_SIZE:
    case CELLPOOL_REFUSED_KIND:
    case CELLPOOL_REFUSED_MALFORMED: return plan_recover();
    case CELLPOOL_REFUSED_NIL: return PLAN_END;
    default: return PLAN_FAULT;
    }
}

/* After a try: done, or what is to be done about it. Two remedies, a stored plan and then room in it, may be needed. */
static plan_code settled(uint32_t answer, int *tries) {
    plan_code code = answer == CELLPOOL_OK ? PLAN_OK : remedy(answer);
    if (cellpool_clear(plan_words, LEN, PLACE) != CELLPOOL_OK) code = PLAN_FAULT;
    if (answer == CELLPOOL_OK || code != PLAN_OK) *tries = 0;
    else if (--*tries == 0) code = PLAN_FAULT;
    return code;
}

plan_code plan_begin(void) {
    uint32_t answer = cellpool_fresh(plan_words, LEN, &plan_cells, &plan_leftover);
    return answer == CELLPOOL_OK ? PLAN_OK : PLAN_FAULT;
}

plan_code plan_add(uint32_t waypoint, plan_place place) {
    plan_code code = PLAN_OK;
    int tries = 3;
    while (tries > 0) code = settled(try_add(waypoint, place), &tries);
    return code;
}

plan_code plan_next(uint32_t *waypoint, plan_place *place) {
    plan_code code = PLAN_OK;
    int tries = 3;
    while (tries > 0) code = settled(try_next(waypoint, place), &tries);
    return code;
}

plan_code plan_occupancy(uint32_t *percent) {
    plan_code code = PLAN_OK;
    int tries = 3;
    while (tries > 0) code = settled(try_occupancy(percent), &tries);
    return code;
}

plan_code plan_store(void) {
    int new_slot = 1 - newer(), tries = 3;
    plan_code code = PLAN_OK;
    while (tries > 0) code = settled(try_store(&plan_slots[new_slot], plan_slots[1 - new_slot].sequence + 1), &tries);
    return code;
}

plan_code plan_changed(uint32_t *changed) {
    plan_code code = PLAN_OK;
    int tries = 3;
    while (tries > 0) code = settled(try_changed(changed), &tries);
    return code;
}

static int load(const plan_slot *slot) {
    size_t rest;
    if (!is_good(slot)) return 0;
    return cellpool_load(plan_words, LEN, slot->image, slot->bytes, &rest) == CELLPOOL_OK && rest == slot->bytes;
}

plan_code plan_recover(void) {
    int first = newer();
    plan_recoveries++;
    if (load(&plan_slots[first]) || load(&plan_slots[1 - first])) return PLAN_OK;
    return plan_begin() == PLAN_OK ? PLAN_LOST : PLAN_FAULT;
}
