/*
 * The board's day, on a desk: what firmware.c does where the pool is full, memory is damaged, and storage is damaged too.
 * The figures are counted by hand: a waypoint takes two cells of 24, an entry of the log one. Comments have percents
 * before they are rounded. The board keeps something of its own in the three words left over, which is there all day.
 */
#include "firmware.h"

#include <stdio.h>

static int unexpected;

static void expect(const char *what, unsigned long found, unsigned long expected) {
    if (found != expected) {
        printf("%s: %lu, expected %lu\n", what, found, expected);
        unexpected++;
    }
}

/* The cells that the plan and the log reach. */
static unsigned long live(void) {
    uint32_t kept = 0, visits;
    expect("collect", cellpool_collect(plan_words, PLAN_WORDS, &kept, &visits), CELLPOOL_OK);
    return kept;
}

/* The percent that the ground display shows. */
static unsigned long shown(void) {
    uint32_t percent = 0;
    expect("occupancy", plan_occupancy(&percent), PLAN_OK);
    return percent;
}

/* Is there something to store? */
static unsigned long changed(void) {
    uint32_t is = 2;
    expect("changed", plan_changed(&is), PLAN_OK);
    return is;
}

/* Where a waypoint of this day is: the numbers are larger than any link. */
static plan_place place_of(uint32_t waypoint) {
    plan_place place;
    place.east = 500000 + 25 * waypoint;
    place.north = 5400000 - 40 * waypoint;
    place.metres = 100 + 10 * waypoint;
    return place;
}

static void fly(uint32_t waypoint) {
    plan_place place = {0, 0, 0}, expected = place_of(waypoint);
    uint32_t number = 0;
    expect("next", plan_next(&number, &place), PLAN_OK);
    expect("waypoint", number, waypoint);
    expect("east", place.east, expected.east);
    expect("north", place.north, expected.north);
    expect("metres", place.metres, expected.metres);
}

/* The state of the place of the first waypoint: the left cell of the one in the plan's register. */
static uint32_t *state_of_place(void) {
    const uint32_t *waypoint = plan_words + CELLPOOL_WORDS(plan_words[2] - 1);
    return plan_words + CELLPOOL_WORDS(waypoint[1] - 1);
}

int main(void) {
    /* The words left over: behind 18 of the pool and 4 of each cell. */
    uint32_t *const spare = plan_words + CELLPOOL_WORDS(PLAN_CELLS);
    uint32_t i, number, percent;
    plan_place place;

    for (i = 0; i < 3; i++) spare[i] = 1000 + i;
    expect("begin", plan_begin(), PLAN_OK);
    expect("cells", plan_cells, 24);
    expect("cells known to the compiler", PLAN_CELLS, 24);
    expect("words left over", plan_leftover, 3);
    printf("%lu bytes of memory: %lu cells, %lu words left over\n", (unsigned long)PLAN_BYTES, (unsigned long)plan_cells,
           (unsigned long)plan_leftover);
    for (i = 10; i >= 1; i--) expect("add", plan_add(i, place_of(i)), PLAN_OK);
    expect("cells of ten waypoints", live(), 20);
    expect("percent of 20 cells", shown(), 83); /* 83.3 */
    expect("nothing stored yet", changed(), 1);
    expect("store", plan_store(), PLAN_OK);
    expect("changed since it was stored", changed(), 0);
    for (i = 1; i <= 5; i++) fly(i);
    expect("changed by five waypoints flown", changed(), 1);
    expect("percent of five waypoints and five entries", shown(), 62); /* 15 cells are 62.5: to the even one */
    fly(6);
    expect("cells of four waypoints and six entries", live(), 8 + 6);
    expect("percent of 14 cells", shown(), 58); /* 58.3 */
    expect("store", plan_store(), PLAN_OK);
    expect("cells after a collection", live(), 8 + 6);
    expect("changed by a collection", changed(), 0);
    printf("six of ten waypoints flown, %lu cells live, %lu percent\n", live(), shown());

    /* Five more fill the pool, 14 + 10; the sixth drops the log, 4 + 6 waypoints are 20 cells; two more fill it again. */
    for (i = 6; i >= 2; i--) expect("add", plan_add(i, place_of(i)), PLAN_OK);
    expect("cells", live(), 24);
    expect("log dropped", plan_drops, 0);
    expect("add", plan_add(1, place_of(1)), PLAN_OK);
    expect("log dropped", plan_drops, 1);
    expect("cells", live(), 20);
    expect("add", plan_add(0, place_of(0)), PLAN_OK);
    expect("add", plan_add(0, place_of(0)), PLAN_OK);
    expect("cells", live(), 24);
    expect("add to a full plan", plan_add(0, place_of(0)), PLAN_FULL);
    expect("cells", live(), 24);
    expect("percent of 24 cells", shown(), 100);
    fly(0);
    expect("cells of eleven waypoints and one entry", live(), 22 + 1);
    expect("percent of 23 cells", shown(), 96); /* 95.8 */
    fly(0);
    fly(1);
    expect("percent of nine waypoints and three entries", shown(), 88); /* 21 cells are 87.5: to the even one */
    printf("log dropped %lu time, twelve waypoints in a full pool, three of them flown\n", (unsigned long)plan_drops);

    /* A damaged register, which the display meets: the plan of the last store comes back, waypoint 7 as its first. */
    plan_words[2] = PLAN_CELLS + 1;
    expect("percent of 14 cells", shown(), 58); /* 58.3 */
    expect("recovered", plan_recoveries, 1);
    expect("changed from what was stored, in other cells", changed(), 0);
    fly(7);
    expect("changed by a waypoint flown", changed(), 1);
    expect("cells of three waypoints and seven entries", live(), 6 + 7);
    printf("damaged memory: recovered, and waypoint 7 flown\n");

    /* The state of a point damaged, so that it looks like a pair: what is no place is refused with 13, and the same plan
       comes back. */
    *state_of_place() = 0;
    fly(7);
    expect("recovered", plan_recoveries, 2);
    expect("cells of three waypoints and seven entries", live(), 6 + 7);
    printf("a place that is no point: recovered, and waypoint 7 flown again\n");

    /* Damaged words and a flipped bit in the newer slot: the older one has all ten waypoints. */
    plan_words[0] = 0;
    plan_slots[1].image[20] ^= 1u;
    fly(1);
    expect("recovered", plan_recoveries, 3);
    expect("cells of nine waypoints and one entry", live(), 18 + 1);
    printf("newer slot damaged too: recovered from the older one\n");

    for (i = 2; i <= 10; i++) fly(i);
    expect("next behind the last", plan_next(&number, &place), PLAN_END);
    expect("cells of ten entries", live(), 10);
    expect("percent of 10 cells", shown(), 42); /* 41.7 */
    plan_slots[0].bytes = 0xFFFFFFFFu;
    plan_words[1 + 4] = 99;
    expect("store of damaged words, no slot good", plan_store(), PLAN_LOST);
    expect("cells of nothing", live(), 0);
    expect("percent of nothing", shown(), 0);
    plan_words[0] = PLAN_CELLS + 1;
    expect("percent of damaged words, no slot good", plan_occupancy(&percent), PLAN_LOST);
    for (i = 0; i < 3; i++) expect("a word left over", spare[i], 1000 + i);
    printf("the words left over at the end of the day: %lu, %lu, %lu\n", (unsigned long)spare[0], (unsigned long)spare[1],
           (unsigned long)spare[2]);
    printf("%s\n", unexpected == 0 ? "all as expected" : "not as expected");
    return unexpected == 0 ? 0 : 1;
}
