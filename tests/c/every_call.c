/* Calls every function of wave_plan.h, with input that is accepted and with input that is refused, and holds what it answers and leaves to
 * what it should be. Each slice is a piece of memory of its own and has the cells that are asked for and no more. */
#include <stdlib.h>
#include <string.h>

#include "answers.h"
#include "wave_plan.h"

enum { ROW = WAVE_PLAN_ROW_CELLS, COUNT = WAVE_PLAN_COUNT_CELLS, TALLY = WAVE_PLAN_TALLY_CELLS, CAP = 3 };

/* A plan's slices: a caller may lend them shorter than they are, by the numbers of cells. */
typedef struct {
    uint16_t *neighbours, *degrees, *waves, *counts, *ranks, *trail, *moved, *tally, *result;
    size_t neighbours_cells, degrees_cells, waves_cells, counts_cells, ranks_cells, trail_cells, moved_cells, tally_cells, result_cells;
} Plan;

#define SLICE(p, name) (p).name, (p).name##_cells
#define PLAN(p) SLICE(p, neighbours), SLICE(p, degrees), SLICE(p, waves), SLICE(p, counts), SLICE(p, ranks)
#define LISTS(p) SLICE(p, trail), SLICE(p, moved)
#define TALLY_OF(p) SLICE(p, tally)
#define RESULT_OF(p) SLICE(p, result)

static uint16_t *cells(size_t count) {
    uint16_t *slice = malloc(count ? count * sizeof *slice : 1);
    if (!slice) exit(2);
    for (size_t i = 0; i < count; i++) slice[i] = 7;
    return slice;
}

/* Memory for n banks, with so many result cells, all of it 7. */
static Plan memory(size_t n, size_t results) {
    Plan p = {cells(ROW * n), cells(n), cells(n), cells(COUNT * n), cells(n), cells(n), cells(n), cells(TALLY), cells(results),
              ROW * n, n, n, COUNT * n, n, n, n, TALLY, results};
    return p;
}

static void gone(Plan p) {
    uint16_t *slices[] = {p.neighbours, p.degrees, p.waves, p.counts, p.ranks, p.trail, p.moved, p.tally, p.result};
    for (size_t i = 0; i < sizeof slices / sizeof *slices; i++) free(slices[i]);
}

/* The slices but the results, and how many bytes they have in memory for so many banks as there are degrees. */
enum { SLICES = 8 };
static void slices_of(Plan p, uint16_t *slices[SLICES], size_t bytes[SLICES]) {
    uint16_t *all[SLICES] = {p.neighbours, p.degrees, p.waves, p.counts, p.ranks, p.trail, p.moved, p.tally};
    size_t n = p.degrees_cells, counts[SLICES] = {ROW * n, n, n, COUNT * n, n, n, n, TALLY};
    for (int i = 0; i < SLICES; i++) slices[i] = all[i], bytes[i] = counts[i] * sizeof **all;
}

/* A copy of memory, in pieces of its own. Trail and moved are all 7 first, so that a call that writes them shows. */
static Plan copy_of(Plan p) {
    Plan q = memory(p.degrees_cells, p.result_cells);
    for (size_t i = 0; i < p.degrees_cells; i++) p.trail[i] = p.moved[i] = 7;
    uint16_t *from[SLICES], *to[SLICES];
    size_t bytes[SLICES];
    slices_of(p, from, bytes);
    slices_of(q, to, bytes);
    for (int i = 0; i < SLICES; i++) memcpy(to[i], from[i], bytes[i]);
    return q;
}

/* Whether memory is as the copy, but for the results. The copy is gone. */
static int as_copied(Plan p, Plan q) {
    uint16_t *now[SLICES], *then[SLICES];
    size_t bytes[SLICES];
    int same = 1;
    slices_of(p, now, bytes);
    slices_of(q, then, bytes);
    for (int i = 0; i < SLICES; i++) same = same && !memcmp(now[i], then[i], bytes[i]);
    gone(q);
    return same;
}

/* A plan of n banks without a clash. */
static Plan opened(uint16_t n, size_t results) {
    Plan p = memory(n, results);
    GIVES(0, wave_plan_open(PLAN(p), TALLY_OF(p), n));
    return p;
}

/* The plan of the four banks of the paper: 0-1, 1-2, 2-3, 0-3. */
static const char four[] = "N 4\n+ 0 1\n+ 1 2\n+ 2 3\n+ 0 3";
static uint16_t read_list(Plan p, const char *list) {
    return wave_plan_read_list((const uint8_t *)list, strlen(list), PLAN(p), LISTS(p), TALLY_OF(p), RESULT_OF(p));
}
static Plan four_banks(size_t results) {
    Plan p = memory(4, results);
    GIVES(0, read_list(p, four));
    return p;
}

/* The six banks of the paper's M8: two waves, and a third if 2 and 5 are struck. */
static const char six[] = "N 6\n+ 0 4\n+ 0 2\n+ 2 3\n+ 1 3\n+ 1 5\n+ 2 5";
static Plan six_banks(size_t results) {
    Plan p = memory(6, results);
    GIVES(0, read_list(p, six));
    return p;
}

/* A result slice that is one cell short gets 2, whatever the rest is. */
#define SHORT_RESULT(p, call) ((p).result_cells--, GIVES(2, call), (p).result_cells++)
#define SHORT_TALLY(p, call) ((p).tally_cells--, GIVES(2, call), (p).tally_cells++)

/* Ranks that are one cell short get 2 from a call that is otherwise accepted, and a rank above 9,999 gets 3. */
#define SHORT_RANKS(p, call) ((p).ranks_cells--, GIVES(2, call), (p).ranks_cells++)
static void far_rank(Plan p, uint16_t rank) { p.ranks[p.ranks_cells - 1] = rank; }
#define FAR_RANK(p, call) (far_rank(p, WAVE_PLAN_MOST_RANK + 1), GIVES(3, call), far_rank(p, 0))
#define WRONG_RANKS(p, call) (SHORT_RANKS(p, call), FAR_RANK(p, call))

static void of_open(void) {
    Plan p = memory(4, 0);
    GIVES(1, wave_plan_open(PLAN(p), TALLY_OF(p), WAVE_PLAN_MOST_BANKS + 1));
    GIVES(2, wave_plan_open(PLAN(p), TALLY_OF(p), 5));
    SHORT_TALLY(p, wave_plan_open(PLAN(p), TALLY_OF(p), 4));
    SHORT_RANKS(p, wave_plan_open(PLAN(p), TALLY_OF(p), 4));
    IS(p.neighbours[0], 7);
    IS(p.ranks[0], 7);
    GIVES(0, wave_plan_open(PLAN(p), TALLY_OF(p), 4));
    IS(p.tally[0], 4);
    IS(p.tally[1], 0);
    IS(p.tally[2], 1);
    IS(p.tally[CAP], WAVE_PLAN_MOST_CAP);
    for (int i = 0; i < ROW * 4; i++) IS(p.neighbours[i], WAVE_PLAN_UNUSED);
    for (int i = 0; i < COUNT * 4; i++) IS(p.counts[i], 0);
    for (int b = 0; b < 4; b++) IS(p.degrees[b] + p.waves[b] + p.ranks[b], 0);
    p.tally[CAP] = 1;
    GIVES(0, wave_plan_open(PLAN(p), TALLY_OF(p), 0));
    IS(p.tally[2], 0);
    IS(p.tally[CAP], WAVE_PLAN_MOST_CAP);
    gone(p);
}

#define ADD(a, b) wave_plan_add(PLAN(p), LISTS(p), TALLY_OF(p), RESULT_OF(p), a, b)
#define STRIKE(a, b) wave_plan_strike(PLAN(p), LISTS(p), TALLY_OF(p), RESULT_OF(p), a, b)
#define SET_CAP(cap) wave_plan_set_cap(PLAN(p), TALLY_OF(p), cap)

static void of_add(void) {
    Plan p = opened(4, WAVE_PLAN_EDIT_RESULTS);
    GIVES(0, ADD(1, 0));
    IS(p.result[0], 1);
    IS(p.result[1], 2);
    IS(p.trail[0], 0);
    IS(p.trail[1], 1);
    IS(p.trail[2], 7);
    IS(p.moved[0], 1);
    IS(p.moved[1], 7);
    IS(p.tally[1], 1);
    GIVES(4, ADD(0, 4));
    IS(p.result[0] + p.result[1], 0);
    GIVES(5, ADD(2, 2));
    GIVES(6, ADD(0, 1));
    SHORT_RESULT(p, ADD(2, 3));
    SHORT_TALLY(p, ADD(2, 3));
    WRONG_RANKS(p, ADD(2, 3));
    p.trail_cells = 3;
    GIVES(2, ADD(2, 3));
    p.trail_cells = 4;
    p.waves[3] = 9;
    GIVES(3, ADD(2, 3));
    p.tally[0] = WAVE_PLAN_MOST_BANKS + 1;
    GIVES(1, ADD(2, 3));
    gone(p);
    p = opened(25, WAVE_PLAN_EDIT_RESULTS);
    for (uint16_t b = 1; b <= ROW; b++) GIVES(0, ADD(0, b));
    GIVES(8, ADD(24, 0));
    IS(p.degrees[0], 23);
    GIVES(0, ADD(1, 24));
    GIVES(0, SET_CAP(2));
    Plan before = copy_of(p);
    GIVES(8, ADD(24, 0)); /* 0, 1 and 24 would need a third wave, and so would 0, 1 and 2 */
    GIVES(20, ADD(1, 2));
    IS(p.result[0] + p.result[1], 0);
    IS(as_copied(p, before), 1);
    GIVES(0, SET_CAP(3));
    GIVES(0, ADD(1, 2));
    IS(p.tally[2], 3);
    IS(p.tally[CAP], 3);
    gone(p);
    p = opened(3, WAVE_PLAN_EDIT_RESULTS);
    p.ranks[1] = WAVE_PLAN_MOST_RANK; /* bank 2 is now earlier than bank 1 */
    GIVES(0, ADD(1, 2));
    IS(p.result[0], 1);
    IS(p.result[1], 2);
    IS(p.trail[0], 2);
    IS(p.trail[1], 1);
    IS(p.moved[0], 1);
    GIVES(0, ADD(0, 1)); /* and later */
    IS(p.result[0], 3);
    IS(p.result[1], 3);
    const uint16_t order[] = {1, 0, 2}, waves[] = {1, 0, 1}, ranks[] = {0, WAVE_PLAN_MOST_RANK, 0};
    for (int i = 0; i < 3; i++) {
        IS(p.trail[i], order[i]);
        IS(p.moved[i], order[i]);
        IS(p.waves[i], waves[i]);
        IS(p.ranks[i], ranks[i]);
    }
    gone(p);
}

static void of_strike(void) {
    Plan p = four_banks(WAVE_PLAN_EDIT_RESULTS);
    GIVES(0, STRIKE(0, 3));
    IS(p.result[0], 4);
    IS(p.result[1], 4);
    const uint16_t order[] = {1, 2, 0, 3}, waves[] = {1, 0, 1, 0};
    for (int i = 0; i < 4; i++) {
        IS(p.trail[i], order[i]);
        IS(p.moved[i], order[i]);
        IS(p.waves[i], waves[i]);
    }
    GIVES(7, STRIKE(0, 3));
    IS(p.result[0] + p.result[1], 0);
    GIVES(4, STRIKE(4, 0));
    GIVES(5, STRIKE(1, 1));
    SHORT_RESULT(p, STRIKE(0, 1));
    SHORT_TALLY(p, STRIKE(0, 1));
    WRONG_RANKS(p, STRIKE(0, 1));
    p.counts[0]++;
    GIVES(3, STRIKE(0, 1));
    gone(p);
    p = six_banks(WAVE_PLAN_EDIT_RESULTS);
    GIVES(0, SET_CAP(2));
    Plan before = copy_of(p);
    GIVES(20, STRIKE(2, 5));
    IS(p.result[0] + p.result[1], 0);
    IS(as_copied(p, before), 1);
    GIVES(0, SET_CAP(3));
    GIVES(0, STRIKE(2, 5));
    IS(p.result[0], 4);
    IS(p.result[1], 5);
    IS(p.tally[2], 3);
    IS(p.tally[CAP], 3);
    gone(p);
}

static void of_set_cap(void) {
    Plan p = four_banks(WAVE_PLAN_LIST_RESULTS);
    GIVES(19, SET_CAP(0));
    GIVES(19, SET_CAP(WAVE_PLAN_MOST_CAP + 1));
    GIVES(19, SET_CAP(256 + 3));
    GIVES(20, SET_CAP(1)); /* two waves are in use */
    SHORT_TALLY(p, SET_CAP(2));
    WRONG_RANKS(p, SET_CAP(2));
    IS(p.tally[CAP], WAVE_PLAN_MOST_CAP);
    for (uint16_t cap = 2; cap <= WAVE_PLAN_MOST_CAP; cap++) {
        Plan before = copy_of(p);
        GIVES(0, SET_CAP(cap));
        IS(p.tally[CAP], cap);
        before.tally[CAP] = cap;
        IS(as_copied(p, before), 1);
    }
    static const uint16_t wrong[] = {0, 1, WAVE_PLAN_MOST_CAP + 1};
    for (int i = 0; i < 3; i++) { /* with such a cap the memory holds no plan */
        p.tally[CAP] = wrong[i];
        GIVES(3, SET_CAP(5));
        GIVES(3, SET_CAP(0));
        IS(p.tally[CAP], wrong[i]);
    }
    p.counts_cells--;
    GIVES(2, SET_CAP(0));
    p.tally[0] = WAVE_PLAN_MOST_BANKS + 1;
    GIVES(1, SET_CAP(0));
    gone(p);
    p = opened(0, 0);
    GIVES(0, SET_CAP(1));
    IS(p.tally[CAP], 1);
    gone(p);
}

#define WAVE_OF(b) wave_plan_wave_of(PLAN(p), TALLY_OF(p), RESULT_OF(p), b)
#define CLASHES_OF(b) wave_plan_clashes_of(PLAN(p), TALLY_OF(p), RESULT_OF(p), b)

static void of_wave_of(void) {
    Plan p = four_banks(WAVE_PLAN_WAVE_RESULTS);
    for (uint16_t b = 0; b < 4; b++) {
        GIVES(0, WAVE_OF(b));
        IS(p.result[0], b % 2);
    }
    GIVES(4, WAVE_OF(4));
    IS(p.result[0], 0);
    SHORT_RESULT(p, WAVE_OF(1));
    SHORT_TALLY(p, WAVE_OF(1));
    WRONG_RANKS(p, WAVE_OF(1));
    p.ranks[0] = 1; /* the tie with bank 1 goes the other way */
    GIVES(3, WAVE_OF(1));
    p.ranks[0] = 0;
    p.tally[1]++;
    GIVES(3, WAVE_OF(1));
    gone(p);
}

static void of_clashes_of(void) {
    Plan p = four_banks(WAVE_PLAN_CLASHES_RESULTS);
    GIVES(0, CLASHES_OF(3));
    IS(p.result[0], 3 * ROW);
    IS(p.result[1], 2);
    IS(p.neighbours[p.result[0]], 0);
    IS(p.neighbours[p.result[0] + 1], 2);
    GIVES(4, CLASHES_OF(4));
    IS(p.result[0] + p.result[1], 0);
    SHORT_RESULT(p, CLASHES_OF(1));
    SHORT_TALLY(p, CLASHES_OF(1));
    WRONG_RANKS(p, CLASHES_OF(1));
    p.degrees[0]++;
    GIVES(3, CLASHES_OF(3));
    gone(p);
}

#define WAVE_BY_RULE(b) wave_plan_wave_by_rule(PLAN(p), TALLY_OF(p), RESULT_OF(p), b)

static void of_wave_by_rule(void) {
    Plan p = four_banks(WAVE_PLAN_BY_RULE_RESULTS);
    for (uint16_t b = 0; b < 4; b++) {
        GIVES(0, WAVE_BY_RULE(b));
        IS(p.result[0], b % 2);
        IS(p.waves[b], b % 2);
    }
    GIVES(4, WAVE_BY_RULE(4));
    IS(p.result[0], 0);
    SHORT_RESULT(p, WAVE_BY_RULE(1));
    SHORT_TALLY(p, WAVE_BY_RULE(1));
    WRONG_RANKS(p, WAVE_BY_RULE(1));
    p.waves[0]++; /* it is not read, but the memory holds no plan */
    GIVES(3, WAVE_BY_RULE(1));
    IS(p.result[0], 0);
    p.waves_cells--;
    GIVES(2, WAVE_BY_RULE(1));
    p.tally[0] = WAVE_PLAN_MOST_BANKS + 1;
    GIVES(1, WAVE_BY_RULE(1));
    gone(p);
    p = opened(WAVE_PLAN_MOST_BANKS_BY_RULE, WAVE_PLAN_EDIT_RESULTS);
    for (uint16_t b = 0; b < 16; b++) /* all banks clash: each has the wave of its number */
        for (uint16_t a = 0; a < b; a++) GIVES(0, ADD(a, b));
    for (uint16_t b = 0; b < 16; b++) {
        p.result[1] = 7;
        GIVES(0, WAVE_BY_RULE(b));
        IS(p.result[0], b);
        IS(p.result[1], 7);
    }
    GIVES(4, WAVE_BY_RULE(16));
    gone(p);
    p = opened(WAVE_PLAN_MOST_BANKS_BY_RULE + 1, WAVE_PLAN_BY_RULE_RESULTS);
    GIVES(22, WAVE_BY_RULE(0));
    IS(p.result[0], 0);
    GIVES(22, WAVE_BY_RULE(17)); /* 22 comes before 4 */
    p.counts[0]++;
    GIVES(3, WAVE_BY_RULE(0)); /* and after 3 */
    gone(p);
}

#define CREW_STEPS(couriers) wave_plan_crew_steps(PLAN(p), TALLY_OF(p), steps, steps_cells, RESULT_OF(p), couriers)
#define LEAST_CREW(limit) wave_plan_least_crew(PLAN(p), TALLY_OF(p), RESULT_OF(p), limit)

/* The steps of a plan of so many banks, and that no cell of the plan is changed. */
static void serves(Plan p, uint16_t couriers, uint16_t total, const uint16_t *wanted) {
    size_t steps_cells = p.degrees_cells;
    uint16_t *steps = cells(steps_cells);
    Plan before = copy_of(p);
    GIVES(0, CREW_STEPS(couriers));
    IS(p.result[0], total);
    for (size_t b = 0; b < steps_cells; b++) IS(steps[b], wanted[b]);
    IS(as_copied(p, before), 1);
    free(steps);
}

static void of_crew_steps(void) {
    Plan p = memory(6, WAVE_PLAN_CREW_RESULTS);
    GIVES(0, read_list(p, "N 6\n+ 0 1\n+ 1 2")); /* waves 1 0 1 0 0 0 */
    const uint16_t one[] = {5, 1, 6, 2, 3, 4}, two[] = {3, 1, 3, 1, 2, 2}, three[] = {3, 1, 3, 1, 1, 2}, four[] = {2, 1, 2, 1, 1, 1};
    serves(p, 1, 6, one);
    serves(p, 2, 3, two);
    serves(p, 3, 3, three);
    serves(p, 4, 2, four);
    serves(p, WAVE_PLAN_MOST_COURIERS, 2, four);
    size_t steps_cells = 6;
    uint16_t *steps = cells(7);
    GIVES(24, CREW_STEPS(0));
    GIVES(WAVE_PLAN_CREW_SPAN, CREW_STEPS(WAVE_PLAN_MOST_COURIERS + 1));
    IS(p.result[0], 0);
    GIVES(24, CREW_STEPS(256 + 2));
    SHORT_RESULT(p, CREW_STEPS(2));
    SHORT_TALLY(p, CREW_STEPS(2));
    WRONG_RANKS(p, CREW_STEPS(2));
    steps_cells = 5;
    GIVES(2, CREW_STEPS(2));
    IS(p.result[0], 0);
    for (int b = 0; b < 7; b++) IS(steps[b], 7);
    steps_cells = 7;
    GIVES(0, CREW_STEPS(2));
    IS(steps[5], 2);
    IS(steps[6], 7); /* cells beyond the banks' stay */
    p.waves[0]++;
    GIVES(3, CREW_STEPS(2));
    GIVES(3, CREW_STEPS(0)); /* 24 comes after 3 */
    p.tally[0] = WAVE_PLAN_MOST_BANKS + 1;
    GIVES(1, CREW_STEPS(0));
    gone(p);
    p = opened(0, WAVE_PLAN_CREW_RESULTS);
    steps_cells = 0;
    GIVES(0, CREW_STEPS(1));
    IS(p.result[0], 0);
    IS(steps[0], 3);
    gone(p);
    free(steps);
}

static void of_least_crew(void) {
    Plan p = memory(6, WAVE_PLAN_LEAST_CREW_RESULTS);
    GIVES(0, read_list(p, "N 6\n+ 0 1\n+ 1 2")); /* waves of four and of two banks */
    static const uint16_t least[] = {0, 0, 4, 2, 2, 2, 1, 1};
    for (uint16_t limit = 0; limit < 8; limit++) {
        GIVES(limit < 2 ? WAVE_PLAN_NO_CREW : 0, LEAST_CREW(limit));
        IS(p.result[0], least[limit]);
    }
    GIVES(0, LEAST_CREW(WAVE_PLAN_MOST_LIMIT));
    IS(p.result[0], 1);
    GIVES(24, LEAST_CREW(WAVE_PLAN_MOST_LIMIT + 1));
    IS(p.result[0], 0);
    SHORT_RESULT(p, LEAST_CREW(3));
    SHORT_TALLY(p, LEAST_CREW(3));
    WRONG_RANKS(p, LEAST_CREW(3));
    p.counts[0]++;
    GIVES(3, LEAST_CREW(0));
    GIVES(3, LEAST_CREW(WAVE_PLAN_MOST_LIMIT + 1)); /* 24 and 25 come after 3 */
    p.counts_cells--;
    GIVES(2, LEAST_CREW(3));
    p.tally[0] = WAVE_PLAN_MOST_BANKS + 1;
    GIVES(1, LEAST_CREW(3));
    gone(p);
    p = opened(0, WAVE_PLAN_LEAST_CREW_RESULTS);
    for (uint16_t limit = 0; limit <= WAVE_PLAN_MOST_LIMIT; limit++) { /* no bank: 0 steps */
        GIVES(0, LEAST_CREW(limit));
        IS(p.result[0], 1);
    }
    GIVES(24, LEAST_CREW(65535));
    gone(p);
    p = opened(WAVE_PLAN_MOST_BANKS, WAVE_PLAN_LEAST_CREW_RESULTS); /* one wave */
    GIVES(0, LEAST_CREW(16));
    IS(p.result[0], WAVE_PLAN_MOST_COURIERS);
    GIVES(25, LEAST_CREW(15));
    IS(p.result[0], 0);
    gone(p);
}

#define WAVE_BOUND() wave_plan_wave_bound(PLAN(p), TALLY_OF(p), RESULT_OF(p))

static void of_wave_bound(void) {
    Plan p = four_banks(WAVE_PLAN_BOUND_RESULTS);
    GIVES(0, WAVE_BOUND());
    IS(p.result[0], 3); /* four banks of degree 2, in two waves */
    IS(p.tally[2], 2);
    SHORT_RESULT(p, WAVE_BOUND());
    SHORT_TALLY(p, WAVE_BOUND());
    WRONG_RANKS(p, WAVE_BOUND());
    p.degrees[0]++;
    GIVES(3, WAVE_BOUND());
    IS(p.result[0], 0);
    p.degrees_cells--;
    GIVES(2, WAVE_BOUND());
    p.tally[0] = WAVE_PLAN_MOST_BANKS + 1;
    GIVES(1, WAVE_BOUND());
    gone(p);
    p = opened(24, WAVE_PLAN_EDIT_RESULTS);
    for (uint16_t b = 0; b < 24; b++) { /* all of the first b + 1 banks clash: as many waves and no more, and so many clashes */
        for (uint16_t a = 0; a < b; a++) GIVES(0, ADD(a, b));
        p.result[1] = 7;
        GIVES(0, WAVE_BOUND());
        IS(p.result[0], b + 1);
        IS(p.result[1], 7);
        IS(p.tally[2], b + 1);
        IS(p.tally[1], (b + 1) * b / 2);
    }
    GIVES(0, wave_plan_open(PLAN(p), TALLY_OF(p), 0));
    GIVES(0, WAVE_BOUND());
    IS(p.result[0], 0);
    gone(p);
}

static void of_read_list(void) {
    Plan p = memory(4, WAVE_PLAN_LIST_RESULTS);
    static const struct {
        const char *list;
        uint16_t number, row;
    } refused[] = {{"", 10, 1},          {"N 1025", 1, 1},      {"N 5", 2, 1},           {"N 4\nx", 11, 2},
                   {"N 4\n+ 0 4", 4, 2}, {"N 4\n+ 0 0", 5, 2}, {"N 4\n- 0 1\n", 7, 2}, {"N 4\nK 0 10000", 11, 2},
                   {"N 4\nK 4 0", 4, 2}, {"V 2", 10, 2}, {"V 02\nN 4", 10, 1}, {"V 2\nV 2", 10, 2}, {"V 2\nN 5", 2, 2},
                   {"N 4\nV 2", 11, 2}, {"V 2\nN 4\nD 9", WAVE_PLAN_D_RETIRED, 3}, {"V 2\nN 4\nD", 11, 3},
                   {"N 4\nD 0\nK 4 0", 18, 3}, {"N 4\n+ 0 1\n- 0 1\nK 0 1", 18, 4},
                   {"N 4\nK 3 7\nK 3 5\n+ 0 1\n+ 0 1", 6, 5}};
    for (size_t i = 0; i < sizeof refused / sizeof *refused; i++) {
        GIVES(refused[i].number, read_list(p, refused[i].list));
        IS(p.result[0], refused[i].row);
    }
    IS(p.tally[1], 1); /* the rows before the one refused */
    IS(p.tally[CAP], WAVE_PLAN_MOST_CAP);
    for (int b = 0; b < 4; b++) IS(p.ranks[b], b == 3 ? 5 : 0);
    GIVES(0, SET_CAP(2));
    GIVES(10, read_list(p, ""));
    IS(p.tally[CAP], 2);
    GIVES(6, read_list(p, "N 4\n+ 0 1\n+ 0 2\n+ 1 2\n+ 0 1")); /* three waves: a list goes by no cap */
    IS(p.tally[2], 3);
    IS(p.tally[CAP], WAVE_PLAN_MOST_CAP);
    GIVES(0, SET_CAP(3));
    SHORT_RESULT(p, read_list(p, four));
    SHORT_TALLY(p, read_list(p, four));
    SHORT_RANKS(p, read_list(p, four));
    char *longest = malloc(WAVE_PLAN_MOST_LIST_BYTES + 2);
    if (!longest) exit(2);
    memset(longest, '\n', WAVE_PLAN_MOST_LIST_BYTES + 1);
    longest[WAVE_PLAN_MOST_LIST_BYTES + 1] = 0;
    GIVES(9, read_list(p, longest));
    IS(p.result[0], 0);
    longest[WAVE_PLAN_MOST_LIST_BYTES] = 0;
    GIVES(10, read_list(p, longest));
    free(longest);
    GIVES(0, read_list(p, "V 2\nN 4\nK 0 0001\nK 3 9999\n+ 0 1"));
    IS(p.result[0], 0);
    IS(p.waves[0], 1);
    IS(p.waves[1], 0);
    IS(p.ranks[0], 1);
    IS(p.ranks[3], WAVE_PLAN_MOST_RANK);
    GIVES(0, read_list(p, four));
    IS(p.result[0], 0);
    IS(p.tally[1], 4);
    IS(p.tally[2], 2);
    IS(p.tally[CAP], WAVE_PLAN_MOST_CAP);
    for (int b = 0; b < 4; b++) IS(p.ranks[b], 0);
    gone(p);
}

#define SHEET(out, length) wave_plan_write_sheet(PLAN(p), TALLY_OF(p), out, length, RESULT_OF(p))
#define POSTER(out, length) wave_plan_write_poster(PLAN(p), TALLY_OF(p), out, length, RESULT_OF(p))

static void of_write_sheet(void) {
    Plan p = four_banks(WAVE_PLAN_SHEET_RESULTS);
    static const char sheet[] = "WAVES 2\nA 0 2\nB 1 3\nTOTAL 4 4\n";
    size_t length = strlen(sheet);
    uint8_t *out = calloc(WAVE_PLAN_MOST_SHEET_BYTES, 1);
    if (!out) exit(2);
    GIVES(12, SHEET(out, length - 1));
    IS(p.result[0], 0);
    IS(out[0], 0);
    SHORT_RESULT(p, SHEET(out, length));
    SHORT_TALLY(p, SHEET(out, length));
    WRONG_RANKS(p, SHEET(out, length));
    IS(out[0], 0);
    GIVES(0, SHEET(out, WAVE_PLAN_MOST_SHEET_BYTES));
    IS(p.result[0], length);
    IS(memcmp(out, sheet, length), 0);
    IS(out[length], 0);
    p.waves[0] = 1;
    GIVES(3, SHEET(out, length));
    gone(p);
    free(out);
}

static void of_write_poster(void) {
    Plan p = four_banks(WAVE_PLAN_POSTER_RESULTS);
    static const char first[] = "A     0    2", second[] = "B     1    3", foot[] = "TOTAL 4 4 ";
    enum { LINE = 41, PAGE = 50 * LINE };
    uint8_t *out = calloc(WAVE_PLAN_MOST_POSTER_BYTES, 1);
    if (!out) exit(2);
    GIVES(12, POSTER(out, PAGE - 1));
    IS(p.result[0], 0);
    IS(out[0], 0);
    SHORT_RESULT(p, POSTER(out, PAGE));
    SHORT_TALLY(p, POSTER(out, PAGE));
    WRONG_RANKS(p, POSTER(out, PAGE));
    IS(out[0], 0);
    GIVES(0, POSTER(out, WAVE_PLAN_MOST_POSTER_BYTES));
    IS(p.result[0], PAGE);
    IS(memcmp(out, first, strlen(first)), 0);
    IS(memcmp(out + LINE, second, strlen(second)), 0);
    IS(memcmp(out + 2 * LINE, foot, strlen(foot)), 0);
    for (int i = strlen(first); i < LINE - 1; i++) IS(out[i], ' ');
    IS(out[LINE - 1], '\n');
    IS(out[PAGE - 2], ' ');
    IS(out[PAGE], 0);
    p.waves[0] = 1;
    GIVES(3, POSTER(out, PAGE));
    gone(p);
    free(out);
}

#define START(journal, length) wave_plan_start_journal(PLAN(p), TALLY_OF(p), journal, length, RESULT_OF(p))
#define REPLAY(journal, length) wave_plan_replay(journal, length, PLAN(p), LISTS(p), TALLY_OF(p), RESULT_OF(p))

enum { FIRST = WAVE_PLAN_FIRST_BYTES, ENTRY = WAVE_PLAN_ENTRY_BYTES, ALL = FIRST + 4 * ENTRY };

/* An entry: tag, length, edit number, and two numbers. And one of length 4. */
#define FIELD(tag, number, a, low, high) tag, 8, 0, number, 0, 0, 0, a, 0, low, high
#define PLAIN_FIELD(tag, a, b) tag, 4, 0, a, 0, b, 0

/* The journal of the four banks, lowest pair first, and the first byte of a further add. */
static const uint8_t journal[ALL + 1] = {WAVE_PLAN_FIRST_TAG, 2, 0, 4, 0,
                                         FIELD(WAVE_PLAN_ADD_TAG, 1, 0, 1, 0), FIELD(WAVE_PLAN_ADD_TAG, 2, 0, 3, 0),
                                         FIELD(WAVE_PLAN_ADD_TAG, 3, 1, 2, 0), FIELD(WAVE_PLAN_ADD_TAG, 4, 2, 3, 0),
                                         WAVE_PLAN_ADD_TAG};

/* The same in fields of length 4. */
enum { PLAIN_ENTRY = WAVE_PLAN_PLAIN_ENTRY_BYTES, PLAIN_ALL = FIRST + 4 * PLAIN_ENTRY };
static const uint8_t plain[PLAIN_ALL + ENTRY] = {WAVE_PLAN_FIRST_TAG, 2, 0, 4, 0,
                                                 PLAIN_FIELD(WAVE_PLAN_ADD_TAG, 0, 1), PLAIN_FIELD(WAVE_PLAN_ADD_TAG, 0, 3),
                                                 PLAIN_FIELD(WAVE_PLAN_ADD_TAG, 1, 2), PLAIN_FIELD(WAVE_PLAN_ADD_TAG, 2, 3)};

/* A journal with the ranks of banks 0 and 3 and one add. */
enum { RANKED = FIRST + 3 * ENTRY };
static const uint8_t ranked[RANKED] = {WAVE_PLAN_FIRST_TAG, 2, 0, 4, 0,
                                       FIELD(WAVE_PLAN_RANK_TAG, 1, 0, 2, 1), FIELD(WAVE_PLAN_RANK_TAG, 2, 3, 15, 39),
                                       FIELD(WAVE_PLAN_ADD_TAG, 3, 1, 2, 0)};

static uint8_t *copy(size_t length) {
    uint8_t *bytes = calloc(length, 1);
    if (!bytes) exit(2);
    memcpy(bytes, journal, length < ALL ? length : ALL);
    return bytes;
}

static void of_start_journal(void) {
    Plan p = four_banks(WAVE_PLAN_START_RESULTS);
    uint8_t *bytes = calloc(ALL + 1, 1);
    if (!bytes) exit(2);
    GIVES(15, START(bytes, ALL - 1));
    IS(p.result[0], 0);
    IS(bytes[0], 0);
    SHORT_RESULT(p, START(bytes, ALL));
    SHORT_TALLY(p, START(bytes, ALL));
    WRONG_RANKS(p, START(bytes, ALL));
    IS(bytes[0], 0);
    GIVES(0, START(bytes, ALL + 1));
    IS(p.result[0], ALL);
    IS(memcmp(bytes, journal, ALL), 0);
    IS(bytes[ALL], 0);
    p.waves[0] = 1;
    GIVES(3, START(bytes, ALL));
    GIVES(0, read_list(p, "N 4\nK 3 9999\nK 1 0\nK 0 258\n+ 2 1"));
    GIVES(15, START(bytes, RANKED - 1));
    GIVES(0, START(bytes, RANKED));
    IS(p.result[0], RANKED);
    IS(memcmp(bytes, ranked, RANKED), 0);
    gone(p);
    free(bytes);
}

/* A recorded edit: the call is one of two. */
typedef uint16_t Recorded(uint16_t *, size_t, uint16_t *, size_t, uint16_t *, size_t, uint16_t *, size_t, const uint16_t *, size_t,
                          uint16_t *, size_t, uint16_t *, size_t, uint16_t *, size_t, uint8_t *, size_t, uint16_t *, size_t,
                          uint16_t, uint16_t, size_t);
#define RECORD(a, b, size, length) call(PLAN(p), LISTS(p), TALLY_OF(p), bytes, size, RESULT_OF(p), a, b, length)

/* What both recorded calls refuse, on a plan of four banks of which 0 and 2 do not clash, and 0 and 1 do. */
static void refused_records(Recorded *call, uint16_t a, uint16_t b) {
    Plan p = four_banks(WAVE_PLAN_RECORD_RESULTS);
    size_t size = ALL + ENTRY;
    uint8_t *bytes = copy(size);
    GIVES(9, RECORD(a, b, size, WAVE_PLAN_MOST_JOURNAL_BYTES + 1));
    IS(p.result[0] + p.result[1] + p.result[2], 0);
    GIVES(13, RECORD(a, b, size, size + 1));
    GIVES(13, RECORD(a, b, size, FIRST - 1));
    GIVES(14, RECORD(a, b, size, ALL - 1));
    GIVES(4, RECORD(a, 4, size, ALL));
    GIVES(5, RECORD(a, a, size, ALL));
    GIVES(15, RECORD(a, b, size - 1, ALL));
    SHORT_RESULT(p, RECORD(a, b, size, ALL));
    SHORT_TALLY(p, RECORD(a, b, size, ALL));
    WRONG_RANKS(p, RECORD(a, b, size, ALL));
    bytes[FIRST + ENTRY] = WAVE_PLAN_RANK_TAG; /* after an add; the rank is 3 */
    GIVES(18, RECORD(a, b, size, ALL));
    GIVES(18, RECORD(a, 4, size, ALL));
    bytes[FIRST + ENTRY + 3]++; /* and the number is 3 */
    GIVES(21, RECORD(a, b, size, ALL));
    GIVES(21, RECORD(a, 4, size, ALL));
    bytes[FIRST + 2 * ENTRY - 1] = 255; /* and the rank is above 9,999 */
    GIVES(14, RECORD(a, b, size, ALL));
    bytes[FIRST + 2 * ENTRY - 1] = 0;
    bytes[FIRST] = 'x';
    GIVES(14, RECORD(a, b, size, ALL));
    p.counts[0]++;
    GIVES(3, RECORD(a, b, size, ALL));
    gone(p);
    free(bytes);
}

/* The field after the last one: its tag and its banks. */
static void entry(const uint8_t *bytes, uint8_t tag, uint8_t a, uint8_t b) {
    const uint8_t wanted[ENTRY] = {FIELD(tag, 5, a, b, 0)};
    IS(memcmp(bytes + ALL, wanted, ENTRY), 0);
}

/* The same after fields of length 4, with one byte less space and with just enough. */
static void plain_entry(Recorded *call, uint8_t tag, uint8_t a, uint8_t b) {
    Plan p = four_banks(WAVE_PLAN_RECORD_RESULTS);
    size_t size = PLAIN_ALL + PLAIN_ENTRY;
    uint8_t bytes[PLAIN_ALL + ENTRY];
    const uint8_t wanted[PLAIN_ENTRY] = {PLAIN_FIELD(tag, a, b)};
    memcpy(bytes, plain, sizeof plain);
    GIVES(15, RECORD(a, b, size - 1, PLAIN_ALL));
    GIVES(0, RECORD(a, b, size, PLAIN_ALL));
    IS(p.result[2], size);
    IS(memcmp(bytes + PLAIN_ALL, wanted, PLAIN_ENTRY), 0);
    IS(bytes[size], 0);
    gone(p);
}

static void of_add_recorded(void) {
    Recorded *call = wave_plan_add_recorded;
    refused_records(call, 2, 0);
    Plan p = four_banks(WAVE_PLAN_RECORD_RESULTS);
    size_t size = ALL + ENTRY;
    uint8_t *bytes = copy(size);
    GIVES(6, wave_plan_add_recorded(PLAN(p), LISTS(p), TALLY_OF(p), bytes, size, RESULT_OF(p), 0, 1, ALL));
    GIVES(0, SET_CAP(2));
    Plan before = copy_of(p);
    GIVES(20, RECORD(2, 0, size, ALL));
    GIVES(20, RECORD(2, 0, size - 1, ALL)); /* before the space is asked about */
    GIVES(14, RECORD(2, 0, size, ALL - 1));
    IS(p.result[0] + p.result[1] + p.result[2], 0);
    IS(as_copied(p, before), 1);
    IS(memcmp(bytes, journal, ALL) || bytes[ALL], 0);
    GIVES(0, SET_CAP(3));
    GIVES(15, RECORD(2, 0, size - 1, ALL));
    GIVES(0, RECORD(2, 0, size, ALL));
    IS(p.tally[CAP], 3);
    IS(p.result[0], 3);
    IS(p.result[1], 4);
    IS(p.result[2], size);
    entry(bytes, WAVE_PLAN_ADD_TAG, 2, 0);
    plain_entry(call, WAVE_PLAN_ADD_TAG, 2, 0);
    gone(p);
    free(bytes);
}

static void of_strike_recorded(void) {
    Recorded *call = wave_plan_strike_recorded;
    refused_records(call, 3, 0);
    Plan p = four_banks(WAVE_PLAN_RECORD_RESULTS);
    size_t size = ALL + ENTRY;
    uint8_t *bytes = copy(size);
    GIVES(7, wave_plan_strike_recorded(PLAN(p), LISTS(p), TALLY_OF(p), bytes, size, RESULT_OF(p), 0, 2, ALL));
    GIVES(0, RECORD(3, 0, size, ALL));
    IS(p.result[0], 4);
    IS(p.result[1], 4);
    IS(p.result[2], size);
    entry(bytes, WAVE_PLAN_STRIKE_TAG, 3, 0);
    plain_entry(call, WAVE_PLAN_STRIKE_TAG, 3, 0);
    gone(p);
    p = six_banks(WAVE_PLAN_RECORD_RESULTS); /* in the journal that stands there, of four banks */
    GIVES(0, SET_CAP(2));
    uint8_t *old = calloc(size, 1);
    if (!old) exit(2);
    memcpy(old, bytes, size);
    Plan before = copy_of(p);
    GIVES(20, RECORD(5, 2, size, ALL));
    GIVES(20, RECORD(5, 2, size, size)); /* before the space is asked about */
    IS(as_copied(p, before), 1);
    IS(memcmp(bytes, old, size), 0);
    GIVES(0, SET_CAP(3));
    GIVES(15, RECORD(5, 2, size, size));
    GIVES(0, RECORD(5, 2, size, ALL));
    IS(p.result[2], size);
    entry(bytes, WAVE_PLAN_STRIKE_TAG, 5, 2);
    gone(p);
    free(old);
    free(bytes);
}

static void of_replay(void) {
    Plan p = memory(4, WAVE_PLAN_REPLAY_RESULTS);
    GIVES(0, REPLAY(journal, ALL));
    IS(p.result[0] + p.result[1], 0);
    IS(p.tally[1], 4);
    for (int b = 0; b < 4; b++) IS(p.waves[b], b % 2);
    IS(p.tally[CAP], WAVE_PLAN_MOST_CAP);
    GIVES(0, SET_CAP(2));
    GIVES(0, REPLAY(journal, ALL + 1));
    IS(p.result[1], 1);
    IS(p.tally[CAP], WAVE_PLAN_MOST_CAP);
    GIVES(0, REPLAY(journal, ALL - 1));
    IS(p.result[0], 0);
    IS(p.result[1], ENTRY - 1);
    IS(p.tally[1], 3);
    GIVES(13, REPLAY(journal, FIRST - 1));
    IS(p.result[0], 1);
    GIVES(0, REPLAY(plain, PLAIN_ALL - 1));
    IS(p.result[0], 0);
    IS(p.result[1], PLAIN_ENTRY - 1);
    IS(p.tally[1], 3);
    GIVES(0, REPLAY(plain, PLAIN_ALL));
    IS(p.result[1], 0);
    IS(p.tally[1], 4);
    uint8_t *bytes = copy(ALL);
    bytes[FIRST + 3] = 0;
    GIVES(21, REPLAY(bytes, ALL));
    IS(p.result[0], 2);
    IS(p.tally[1], 0);
    bytes[FIRST + 3] = 1;
    bytes[FIRST + ENTRY + 6] = 1; /* 16,777,218 */
    GIVES(21, REPLAY(bytes, ALL));
    IS(p.result[0], 3);
    IS(p.tally[1], 1);
    bytes[FIRST + ENTRY + 1] = 4; /* another length than the first's, its value there or not */
    GIVES(14, REPLAY(bytes, ALL));
    IS(p.result[0], 3);
    GIVES(14, REPLAY(bytes, FIRST + ENTRY + 3));
    bytes[FIRST + ENTRY + 1] = 8;
    bytes[FIRST + ENTRY + 6] = 0;
    bytes[FIRST + 2 * ENTRY] = WAVE_PLAN_FIRST_TAG;
    GIVES(14, REPLAY(bytes, ALL));
    IS(p.result[0], 4);
    IS(p.result[1], 0);
    IS(p.tally[1], 2); /* the fields before the one refused */
    bytes[FIRST + ENTRY] = WAVE_PLAN_STRIKE_TAG;
    GIVES(7, REPLAY(bytes, ALL));
    IS(p.result[0], 3);
    bytes[3] = 5;
    GIVES(2, REPLAY(bytes, ALL));
    IS(p.result[0], 1);
    SHORT_RESULT(p, REPLAY(journal, ALL));
    SHORT_TALLY(p, REPLAY(journal, ALL));
    SHORT_RANKS(p, REPLAY(journal, ALL));
    memcpy(bytes, ranked, RANKED);
    GIVES(0, REPLAY(bytes, RANKED));
    const uint16_t ranks[] = {258, 0, 0, WAVE_PLAN_MOST_RANK};
    for (int b = 0; b < 4; b++) IS(p.ranks[b], ranks[b]);
    IS(p.tally[1], 1);
    bytes[FIRST + ENTRY + 7] = 4; /* there is no bank 4 */
    GIVES(4, REPLAY(bytes, RANKED));
    IS(p.result[0], 3);
    IS(p.ranks[0] + p.ranks[3], 258); /* the fields before the one refused */
    bytes[FIRST + ENTRY + 9]++; /* 10,000 */
    GIVES(14, REPLAY(bytes, RANKED));
    IS(p.result[0], 3);
    bytes[FIRST + ENTRY + 9]--;
    bytes[FIRST] = WAVE_PLAN_ADD_TAG; /* an add of banks 0 and 258 */
    GIVES(4, REPLAY(bytes, RANKED));
    IS(p.result[0], 2);
    bytes[FIRST + 9] = 1;
    bytes[FIRST + 10] = 0; /* now of banks 0 and 1 */
    GIVES(18, REPLAY(bytes, RANKED));
    IS(p.result[0], 3);
    IS(p.tally[1], 1);
    free(bytes);
    bytes = calloc(WAVE_PLAN_MOST_JOURNAL_BYTES + 1, 1);
    if (!bytes) exit(2);
    GIVES(9, REPLAY(bytes, WAVE_PLAN_MOST_JOURNAL_BYTES + 1));
    IS(p.result[0] + p.result[1], 0);
    GIVES(13, REPLAY(bytes, WAVE_PLAN_MOST_JOURNAL_BYTES));
    free(bytes);
    gone(p);
}

enum { PLACE = WAVE_PLAN_PLACE_CELLS(4), SHELF = WAVE_PLAN_SHELF_CELLS(4) };

/* Where a place has banks, clashes and waves, its ranks, and its cap. */
enum { BANKS = 1 + ROW * 4 + 4 + 4 + COUNT * 4, RANKS = BANKS + 3, KEPT_CAP = RANKS + 4 };

/* An open shelf for four banks; its other cells are 7. */
static uint16_t *open_shelf(void) {
    uint16_t *shelf = cells(SHELF);
    GIVES(0, wave_plan_open_shelf(shelf, SHELF, 4));
    return shelf;
}

/* A name in a piece of memory of its own. */
static uint8_t *name_of(const char *name) {
    size_t length = strlen(name);
    uint8_t *bytes = malloc(length ? length : 1);
    if (!bytes) exit(2);
    memcpy(bytes, name, length);
    return bytes;
}

static uint16_t keep(Plan p, uint16_t *shelf, size_t shelf_cells, const char *name) {
    uint8_t *bytes = name_of(name);
    uint16_t number = wave_plan_keep(PLAN(p), TALLY_OF(p), shelf, shelf_cells, bytes, strlen(name));
    free(bytes);
    return number;
}

static uint16_t come_back(Plan p, const uint16_t *shelf, size_t shelf_cells, const char *name) {
    uint8_t *bytes = name_of(name);
    uint16_t number = wave_plan_come_back(PLAN(p), SLICE(p, moved), TALLY_OF(p), shelf, shelf_cells, bytes, strlen(name), RESULT_OF(p));
    free(bytes);
    return number;
}

/* Names that are not known: of another length, in small letters, with other bytes than spaces, and with one byte changed. */
static const char *const unknown[] = {"", "NOON", "NOON   ", "NOON     ", "noon    ", "NOON\t\t\t\t", "    NOON", "MORNING", "MORNINGS", "CLOSE  s"};
enum { UNKNOWN = sizeof unknown / sizeof *unknown };

static void of_open_shelf(void) {
    uint16_t *shelf = cells(SHELF + 1);
    GIVES(1, wave_plan_open_shelf(shelf, SHELF, WAVE_PLAN_MOST_BANKS + 1));
    GIVES(2, wave_plan_open_shelf(shelf, SHELF - 1, 4));
    GIVES(2, wave_plan_open_shelf(shelf, SHELF + 1, 5));
    for (int i = 0; i <= SHELF; i++) IS(shelf[i], 7);
    GIVES(0, wave_plan_open_shelf(shelf, SHELF + 1, 4));
    for (int i = 0; i < SHELF; i++) IS(shelf[i], i % PLACE ? 7 : 0);
    IS(shelf[SHELF], 7);
    free(shelf);
}

static void of_keep(void) {
    Plan p = four_banks(WAVE_PLAN_LIST_RESULTS);
    uint16_t *shelf = open_shelf(), *place = shelf + PLACE;
    for (int i = 0; i < UNKNOWN; i++) GIVES(16, keep(p, shelf, SHELF, unknown[i]));
    GIVES(2, keep(p, shelf, SHELF - 1, "NOON    "));
    SHORT_TALLY(p, keep(p, shelf, SHELF, "NOON    "));
    p.counts_cells--;
    GIVES(2, keep(p, shelf, SHELF, "NOON    "));
    p.counts_cells++;
    WRONG_RANKS(p, keep(p, shelf, SHELF, "NOON    "));
    p.ranks[3] = 5; /* the last of all still */
    GIVES(0, SET_CAP(9));
    for (int i = 0; i < SHELF; i++) IS(shelf[i], i % PLACE ? 7 : 0);
    GIVES(0, keep(p, shelf, SHELF, "NOON    "));
    for (int i = 0; i < SHELF; i++)
        if (i / PLACE != 1) IS(shelf[i], i % PLACE ? 7 : 0);
    IS(place[0], 1);
    IS(memcmp(place + 1, p.neighbours, ROW * 4 * sizeof *place), 0);
    for (int b = 0; b < 4; b++) {
        IS(place[1 + ROW * 4 + b], 2);
        IS(place[1 + ROW * 4 + 4 + b], b % 2);
    }
    IS(memcmp(place + 1 + ROW * 4 + 8, p.counts, COUNT * 4 * sizeof *place), 0);
    IS(place[BANKS], 4);
    IS(place[BANKS + 1], 4);
    IS(place[BANKS + 2], 2);
    for (int b = 0; b < 4; b++) IS(place[RANKS + b], b == 3 ? 5 : 0);
    IS(KEPT_CAP, PLACE - 1);
    IS(place[KEPT_CAP], 9);
    GIVES(0, keep(p, shelf, SHELF, "MORNING "));
    GIVES(0, keep(p, shelf, SHELF, "CLOSE   "));
    for (int i = 0; i < PLACE; i++) IS(shelf[i] == place[i] && place[PLACE + i] == place[i], 1);
    GIVES(0, read_list(p, "N 4\n+ 0 1"));
    GIVES(0, keep(p, shelf, SHELF, "NOON    ")); /* kept again */
    IS(place[BANKS + 1], 1);
    IS(place[RANKS + 3], 0);
    IS(place[KEPT_CAP], WAVE_PLAN_MOST_CAP);
    IS(shelf[BANKS + 1] + place[PLACE + BANKS + 1], 8);
    place[0] = 2;
    GIVES(3, keep(p, shelf, SHELF, "CLOSE   "));
    place[0] = 1;
    place[RANKS + 3] = WAVE_PLAN_MOST_RANK + 1;
    GIVES(3, keep(p, shelf, SHELF, "CLOSE   "));
    place[RANKS + 3] = 0;
    static const uint16_t wrong[] = {0, 1, WAVE_PLAN_MOST_CAP + 1};
    for (int i = 0; i < 3; i++) { /* out of span, or below the two waves */
        place[KEPT_CAP] = wrong[i];
        GIVES(3, keep(p, shelf, SHELF, "CLOSE   "));
    }
    place[KEPT_CAP] = 2;
    place[BANKS] = 3; /* the clash is one of three banks as well */
    GIVES(3, keep(p, shelf, SHELF, "NOON    ")); /* the place to be replaced is asked about too */
    GIVES(3, keep(p, shelf, SHELF, ""));
    GIVES(2, keep(p, shelf, SHELF - 1, ""));
    place[0] = 0;
    GIVES(0, keep(p, shelf, SHELF, "CLOSE   ")); /* an unused place is not read */
    p.degrees[0]++;
    GIVES(3, keep(p, shelf, SHELF, "CLOSE   "));
    p.tally[0] = WAVE_PLAN_MOST_BANKS + 1;
    GIVES(1, keep(p, shelf, SHELF, "CLOSE   "));
    free(shelf);
    gone(p);
}

static void of_come_back(void) {
    Plan p = four_banks(WAVE_PLAN_COME_BACK_RESULTS);
    uint16_t *shelf = open_shelf();
    GIVES(17, come_back(p, shelf, SHELF, "NOON    "));
    IS(p.result[0], 0);
    p.ranks[3] = 5;
    GIVES(0, SET_CAP(2));
    GIVES(0, keep(p, shelf, SHELF, "NOON    "));
    uint16_t *copy_of_shelf = cells(SHELF);
    memcpy(copy_of_shelf, shelf, SHELF * sizeof *shelf);
    GIVES(0, read_list(p, "N 4\n+ 0 1\n+ 1 2\n+ 2 3\n+ 0 3\n+ 0 2")); /* waves 0 2 1 2 */
    GIVES(0, SET_CAP(8));
    p.moved[3] = 7;
    p.trail[0] = 7;
    for (int i = 0; i < UNKNOWN; i++) GIVES(16, come_back(p, shelf, SHELF, unknown[i]));
    IS(p.result[0], 0);
    GIVES(17, come_back(p, shelf, SHELF, "CLOSE   "));
    GIVES(2, come_back(p, shelf, SHELF - 1, "NOON    "));
    SHORT_TALLY(p, come_back(p, shelf, SHELF, "NOON    "));
    p.moved_cells--;
    GIVES(2, come_back(p, shelf, SHELF, "NOON    "));
    IS(p.result[0], 0);
    p.moved_cells++;
    WRONG_RANKS(p, come_back(p, shelf, SHELF, "NOON    "));
    p.result[0] = 9;
    SHORT_RESULT(p, come_back(p, shelf, SHELF, "NOON    "));
    IS(p.result[0], 9);
    IS(p.waves[1], 2);
    GIVES(0, come_back(p, shelf, SHELF, "NOON    "));
    IS(p.result[0], 3);
    for (int b = 0; b < 4; b++) {
        IS(p.moved[b], b < 3 ? b + 1 : 7);
        IS(p.waves[b], b % 2);
        IS(p.degrees[b], 2);
        IS(p.ranks[b], b == 3 ? 5 : 0);
    }
    IS(p.trail[0], 7);
    IS(p.tally[1], 4);
    IS(p.tally[2], 2);
    IS(p.tally[CAP], 2); /* that of the plan kept */
    IS(memcmp(shelf, copy_of_shelf, SHELF * sizeof *shelf), 0);
    GIVES(0, keep(p, shelf, SHELF, "NOON    "));
    IS(memcmp(shelf, copy_of_shelf, SHELF * sizeof *shelf), 0); /* the same plan, cell by cell */
    shelf[PLACE + BANKS] = 3;
    GIVES(3, come_back(p, shelf, SHELF, "MORNING "));
    GIVES(3, come_back(p, shelf, SHELF, ""));
    shelf[PLACE + BANKS] = 4;
    shelf[PLACE + RANKS] = 6; /* bank 0 is then later than bank 1 */
    GIVES(3, come_back(p, shelf, SHELF, "NOON    "));
    shelf[PLACE + RANKS] = 0;
    shelf[PLACE + KEPT_CAP] = 1;
    GIVES(3, come_back(p, shelf, SHELF, "NOON    "));
    shelf[PLACE + KEPT_CAP] = WAVE_PLAN_MOST_CAP;
    GIVES(0, come_back(p, shelf, SHELF, "NOON    "));
    IS(p.tally[CAP], WAVE_PLAN_MOST_CAP);
    p.counts[0]++;
    GIVES(3, come_back(p, shelf, SHELF, "NOON    "));
    p.tally[0] = WAVE_PLAN_MOST_BANKS + 1;
    GIVES(1, come_back(p, shelf, SHELF, "NOON    "));
    IS(p.result[0], 0);
    free(copy_of_shelf);
    free(shelf);
    gone(p);
}

/* The bytes are lent from a piece of memory of their own, without the 0 at their end. */
static uint16_t check_sheet(Plan p, const char *sheet) {
    size_t length = strlen(sheet);
    uint8_t *bytes = malloc(length ? length : 1);
    if (!bytes) exit(2);
    memcpy(bytes, sheet, length);
    uint16_t number = wave_plan_check_sheet(PLAN(p), TALLY_OF(p), RESULT_OF(p), bytes, length);
    free(bytes);
    return number;
}

static void results_are(Plan p, uint16_t line, uint16_t first, uint16_t second) {
    IS(p.result[0], line);
    IS(p.result[1], first);
    IS(p.result[2], second);
}

static void of_check_sheet(void) {
    static const char own[] = "WAVES 2\nA 0 2\nB 1 3\nTOTAL 4 4\n", other[] = "WAVES 2\nA 1 3\nB 0 2\nTOTAL 4 4\n";
    static const struct {
        const char *sheet;
        uint16_t line;
    } wrong[] = {{"", 1},
                 {"WAVES 2", 1},
                 {"WAVES 02\nA 0 2\nB 1 3\nTOTAL 4 4\n", 1},
                 {"WAVES 2\nB 0 2\nA 1 3\nTOTAL 4 4\n", 2},
                 {"WAVES 2\nA 2 0\nB 1 3\nTOTAL 4 4\n", 2},
                 {"WAVES 2\nA 0 2\nB 2 3\nTOTAL 4 4\n", 3},
                 {"WAVES 2\nA 0 2\nB 1 4\nTOTAL 4 4\n", 3},
                 {"WAVES 2\nA 0 2\nB 1 3\nTOTAL 4 5\n", 4},
                 {"WAVES 2\nA 0 2\nB 1 3\nTOTAL 4 4", 4},
                 {"WAVES 2\nA 0 2\nB 1 3\nTOTAL 4 4\n\n", 4}};
    Plan p = four_banks(WAVE_PLAN_CHECK_SHEET_RESULTS);
    Plan q = copy_of(p);
    GIVES(0, check_sheet(p, own));
    results_are(p, 0, 0, 0);
    GIVES(0, check_sheet(p, other)); /* not the planner's */
    results_are(p, 0, 0, 0);
    for (size_t i = 0; i < sizeof wrong / sizeof *wrong; i++) {
        GIVES(26, check_sheet(p, wrong[i].sheet));
        results_are(p, wrong[i].line, 0, 0);
    }
    GIVES(27, check_sheet(p, "WAVES 2\nA 0\nB 1 2 3\nTOTAL 4 4\n"));
    results_are(p, 0, 1, 2);
    GIVES(27, check_sheet(p, "WAVES 3\nA 0\nB 1 3\nC 2\nTOTAL 4 4\n")); /* a wave more than the plan's */
    results_are(p, 0, 0, 0);
    GIVES(27, check_sheet(p, "WAVES 3\nA 0\nB 1\nC 2 3\nTOTAL 4 4\n")); /* and a clash */
    results_are(p, 0, 2, 3);
    p.result[0] = 9;
    SHORT_RESULT(p, check_sheet(p, ""));
    SHORT_TALLY(p, check_sheet(p, ""));
    IS(p.result[0], 9);
    WRONG_RANKS(p, check_sheet(p, own));
    IS(as_copied(p, q), 1);
    p.counts[0]++;
    GIVES(3, check_sheet(p, ""));
    results_are(p, 0, 0, 0);
    p.counts_cells--;
    GIVES(2, check_sheet(p, ""));
    p.tally[0] = WAVE_PLAN_MOST_BANKS + 1;
    GIVES(1, check_sheet(p, own));
    gone(p);
    p = six_banks(WAVE_PLAN_CHECK_SHEET_RESULTS);
    GIVES(0, STRIKE(2, 5)); /* M9: three waves, and two are enough */
    IS(p.tally[2], 3);
    GIVES(0, check_sheet(p, "WAVES 2\nA 0 3 5\nB 1 2 4\nTOTAL 6 5\n"));
    gone(p);
    p = opened(0, WAVE_PLAN_CHECK_SHEET_RESULTS);
    GIVES(0, check_sheet(p, "WAVES 0\nTOTAL 0 0\n"));
    GIVES(26, check_sheet(p, "WAVES 1\nA\nTOTAL 0 0\n"));
    results_are(p, 2, 0, 0);
    gone(p);
}

int main(void) {
    static const Test tests[] = {{"wave_plan_open", of_open},
                                 {"wave_plan_add", of_add},
                                 {"wave_plan_strike", of_strike},
                                 {"wave_plan_set_cap", of_set_cap},
                                 {"wave_plan_wave_of", of_wave_of},
                                 {"wave_plan_clashes_of", of_clashes_of},
                                 {"wave_plan_wave_bound", of_wave_bound},
                                 {"wave_plan_wave_by_rule", of_wave_by_rule},
                                 {"wave_plan_crew_steps", of_crew_steps},
                                 {"wave_plan_least_crew", of_least_crew},
                                 {"wave_plan_read_list", of_read_list},
                                 {"wave_plan_write_sheet", of_write_sheet},
                                 {"wave_plan_write_poster", of_write_poster},
                                 {"wave_plan_start_journal", of_start_journal},
                                 {"wave_plan_add_recorded", of_add_recorded},
                                 {"wave_plan_strike_recorded", of_strike_recorded},
                                 {"wave_plan_replay", of_replay},
                                 {"wave_plan_open_shelf", of_open_shelf},
                                 {"wave_plan_keep", of_keep},
                                 {"wave_plan_come_back", of_come_back},
                                 {"wave_plan_check_sheet", of_check_sheet}};
    RUN(tests);
    return 0;
}
