/* Wave plans in memory that a struct owns: the calls of wave_plan.h without their slices.
 *
 *     wave_plan_memory m;
 *     if (wave_plan_memory_new(&m, 1024) || wave_plan_memory_open(&m, 4)) return 1;
 *     if (wave_plan_memory_add(&m, 0, 1)) return 1;
 *     for (int i = 0; i < m.moved_count; i++) printf("%d\n", m.moved[i]);
 *     wave_plan_memory_free(&m);
 *
 * Each function lends the struct's memory to the function of wave_plan.h that has the rest of its name, and returns its number: 0 if
 * the call was accepted, else one of the numbers there. It decides nothing itself; what the call does stands there.
 *
 * Further answers: the lists of an edit stay in the struct, with their counts. All others are written through pointers, which are a
 * call's last parameters and must not be null. Where the call is refused they get 0, if nothing else is said.
 * A refused call leaves struct, plan and lists as they were, but for a list and a replay.
 */
#ifndef WAVE_PLAN_MEMORY_H
#define WAVE_PLAN_MEMORY_H

#include <stdlib.h>
#include <string.h>

#include "wave_plan.h"

/* What wave_plan_memory_new and wave_plan_shelf_new return where there is no memory. It is no refusal's number. */
#define WAVE_PLAN_OUT_OF_MEMORY 65535

/* The cells of the tally. */
enum { WAVE_PLAN_TALLY_BANKS, WAVE_PLAN_TALLY_CLASHES, WAVE_PLAN_TALLY_WAVES, WAVE_PLAN_TALLY_CAP };

/* The names of kept plans. */
#define WAVE_PLAN_MORNING "MORNING "
#define WAVE_PLAN_NOON "NOON    "
#define WAVE_PLAN_CLOSE "CLOSE   "

/* A plan and the memory that it stands in. The struct owns that memory: of copies of it go on with one alone.
 *   neighbours ..  the slices of wave_plan.h, cut from one block that starts at `neighbours`. A caller reads them; of them it writes
 *                  ranks alone, after opening and before the first clash.
 *   capacity       the slices have the cells of so many banks. A plan may have fewer; one of more gets 2.
 *   tally          banks, clashes, waves, cap, by the numbers above.
 *   trail_count    how many banks at the front of `trail` the last accepted edit took up. 0 after opening and a return to a kept plan.
 *   moved_count    how many banks at the front of `moved` changed their wave in the last accepted edit, or in the return to a kept plan
 *                  after it. 0 after opening.
 * Both counts are 0 after a list and a replay, refused ones too, since these do not answer the counts of their last edit. */
typedef struct wave_plan_memory {
    uint16_t *neighbours, *degrees, *waves, *counts, *ranks, *trail, *moved;
    size_t capacity;
    uint16_t tally[WAVE_PLAN_TALLY_CELLS];
    uint16_t trail_count, moved_count;
} wave_plan_memory;

/* A shelf and the memory that it stands in, likewise. */
typedef struct wave_plan_shelf {
    uint16_t *cells;
    size_t cell_count;
} wave_plan_shelf;

/* Memory for plans of up to so many banks. It holds no plan (3) before one is opened, read or replayed. */
static inline uint16_t wave_plan_memory_new(wave_plan_memory *m, uint16_t banks) {
    const size_t n = banks, cells_of_a_bank = WAVE_PLAN_ROW_CELLS + WAVE_PLAN_COUNT_CELLS + 5;
    m->neighbours = (uint16_t *)calloc(cells_of_a_bank * n + 1, sizeof *m->neighbours); /* one more: no slice is null for 0 banks */
    if (!m->neighbours) return WAVE_PLAN_OUT_OF_MEMORY;
    m->degrees = m->neighbours + WAVE_PLAN_ROW_CELLS * n;
    m->waves = m->degrees + n;
    m->counts = m->waves + n;
    m->ranks = m->counts + WAVE_PLAN_COUNT_CELLS * n;
    m->trail = m->ranks + n;
    m->moved = m->trail + n;
    m->capacity = n;
    memset(m->tally, 0, sizeof m->tally);
    m->trail_count = m->moved_count = 0;
    return WAVE_PLAN_ACCEPTED;
}

/* Gives the memory back. Also after wave_plan_memory_new found none, and more than once. */
static inline void wave_plan_memory_free(wave_plan_memory *m) {
    free(m->neighbours);
    m->neighbours = NULL;
}

/* A plan's slices as parameters; its trail and moved; its tally. */
#define WAVE_PLAN_CELLS_OF(m)                                                                                     \
    (m)->neighbours, WAVE_PLAN_ROW_CELLS * (m)->capacity, (m)->degrees, (m)->capacity, (m)->waves, (m)->capacity, \
        (m)->counts, WAVE_PLAN_COUNT_CELLS * (m)->capacity, (m)->ranks, (m)->capacity
#define WAVE_PLAN_LISTS_OF(m) (m)->trail, (m)->capacity, (m)->moved, (m)->capacity
#define WAVE_PLAN_TALLY_OF(m) (m)->tally, WAVE_PLAN_TALLY_CELLS

static inline uint16_t wave_plan_memory_open(wave_plan_memory *m, uint16_t banks) {
    const uint16_t number = wave_plan_open(WAVE_PLAN_CELLS_OF(m), WAVE_PLAN_TALLY_OF(m), banks);
    if (!number) m->trail_count = m->moved_count = 0;
    return number;
}

static inline uint16_t wave_plan_memory_add(wave_plan_memory *m, uint16_t a, uint16_t b) {
    uint16_t result[WAVE_PLAN_EDIT_RESULTS];
    const uint16_t number = wave_plan_add(WAVE_PLAN_CELLS_OF(m), WAVE_PLAN_LISTS_OF(m), WAVE_PLAN_TALLY_OF(m),
                                          result, WAVE_PLAN_EDIT_RESULTS, a, b);
    if (!number) m->moved_count = result[0], m->trail_count = result[1];
    return number;
}

static inline uint16_t wave_plan_memory_strike(wave_plan_memory *m, uint16_t a, uint16_t b) {
    uint16_t result[WAVE_PLAN_EDIT_RESULTS];
    const uint16_t number = wave_plan_strike(WAVE_PLAN_CELLS_OF(m), WAVE_PLAN_LISTS_OF(m), WAVE_PLAN_TALLY_OF(m),
                                             result, WAVE_PLAN_EDIT_RESULTS, a, b);
    if (!number) m->moved_count = result[0], m->trail_count = result[1];
    return number;
}

static inline uint16_t wave_plan_memory_set_cap(wave_plan_memory *m, uint16_t cap) {
    return wave_plan_set_cap(WAVE_PLAN_CELLS_OF(m), WAVE_PLAN_TALLY_OF(m), cap);
}

static inline uint16_t wave_plan_memory_wave_of(const wave_plan_memory *m, uint16_t b, uint16_t *wave) {
    return wave_plan_wave_of(WAVE_PLAN_CELLS_OF(m), WAVE_PLAN_TALLY_OF(m), wave, WAVE_PLAN_WAVE_RESULTS, b);
}

/* first: the banks that clash with b, which stand in the struct, so that they are good up to the next edit; never null. count: how
 * many they are. */
static inline uint16_t wave_plan_memory_clashes_of(const wave_plan_memory *m, uint16_t b, const uint16_t **first, uint16_t *count) {
    uint16_t result[WAVE_PLAN_CLASHES_RESULTS];
    const uint16_t number = wave_plan_clashes_of(WAVE_PLAN_CELLS_OF(m), WAVE_PLAN_TALLY_OF(m), result, WAVE_PLAN_CLASHES_RESULTS, b);
    *first = m->neighbours + result[0];
    *count = result[1];
    return number;
}

static inline uint16_t wave_plan_memory_wave_bound(const wave_plan_memory *m, uint16_t *waves) {
    return wave_plan_wave_bound(WAVE_PLAN_CELLS_OF(m), WAVE_PLAN_TALLY_OF(m), waves, WAVE_PLAN_BOUND_RESULTS);
}

static inline uint16_t wave_plan_memory_wave_by_rule(const wave_plan_memory *m, uint16_t b, uint16_t *wave) {
    return wave_plan_wave_by_rule(WAVE_PLAN_CELLS_OF(m), WAVE_PLAN_TALLY_OF(m), wave, WAVE_PLAN_BY_RULE_RESULTS, b);
}

/* steps: lent by the caller, a cell for each bank of the plan; the step of each. total: how many steps there are. */
static inline uint16_t wave_plan_memory_crew_steps(const wave_plan_memory *m, uint16_t couriers, uint16_t *steps, size_t steps_cells,
                                                   uint16_t *total) {
    return wave_plan_crew_steps(WAVE_PLAN_CELLS_OF(m), WAVE_PLAN_TALLY_OF(m), steps, steps_cells, total, WAVE_PLAN_CREW_RESULTS, couriers);
}

static inline uint16_t wave_plan_memory_least_crew(const wave_plan_memory *m, uint16_t limit, uint16_t *couriers) {
    return wave_plan_least_crew(WAVE_PLAN_CELLS_OF(m), WAVE_PLAN_TALLY_OF(m), couriers, WAVE_PLAN_LEAST_CREW_RESULTS, limit);
}

/* row: the row that was refused. */
static inline uint16_t wave_plan_memory_read_list(wave_plan_memory *m, const char *list, size_t list_bytes, uint16_t *row) {
    m->trail_count = m->moved_count = 0;
    return wave_plan_read_list((const uint8_t *)list, list_bytes, WAVE_PLAN_CELLS_OF(m), WAVE_PLAN_LISTS_OF(m), WAVE_PLAN_TALLY_OF(m),
                               row, WAVE_PLAN_LIST_RESULTS);
}

/* length: how many bytes of `out` are the sheet. No 0 stands after them. */
static inline uint16_t wave_plan_memory_write_sheet(const wave_plan_memory *m, char *out, size_t out_bytes, size_t *length) {
    uint16_t result[WAVE_PLAN_SHEET_RESULTS];
    const uint16_t number = wave_plan_write_sheet(WAVE_PLAN_CELLS_OF(m), WAVE_PLAN_TALLY_OF(m), (uint8_t *)out, out_bytes,
                                                  result, WAVE_PLAN_SHEET_RESULTS);
    *length = result[0];
    return number;
}

/* length: how many bytes of `out` are the poster. No 0 stands after them. */
static inline uint16_t wave_plan_memory_write_poster(const wave_plan_memory *m, char *out, size_t out_bytes, size_t *length) {
    uint16_t result[WAVE_PLAN_POSTER_RESULTS];
    const uint16_t number = wave_plan_write_poster(WAVE_PLAN_CELLS_OF(m), WAVE_PLAN_TALLY_OF(m), (uint8_t *)out, out_bytes,
                                                   result, WAVE_PLAN_POSTER_RESULTS);
    *length = result[0];
    return number;
}

/* length: that of the journal. */
static inline uint16_t wave_plan_memory_start_journal(const wave_plan_memory *m, uint8_t *journal, size_t journal_bytes, size_t *length) {
    uint16_t result[WAVE_PLAN_START_RESULTS];
    const uint16_t number = wave_plan_start_journal(WAVE_PLAN_CELLS_OF(m), WAVE_PLAN_TALLY_OF(m), journal, journal_bytes,
                                                    result, WAVE_PLAN_START_RESULTS);
    *length = result[0];
    return number;
}

/* length: that of the journal, before and after. Where the call is refused it stays. */
static inline uint16_t wave_plan_memory_add_recorded(wave_plan_memory *m, uint16_t a, uint16_t b, uint8_t *journal, size_t journal_bytes,
                                                     size_t *length) {
    uint16_t result[WAVE_PLAN_RECORD_RESULTS];
    const uint16_t number = wave_plan_add_recorded(WAVE_PLAN_CELLS_OF(m), WAVE_PLAN_LISTS_OF(m), WAVE_PLAN_TALLY_OF(m),
                                                   journal, journal_bytes, result, WAVE_PLAN_RECORD_RESULTS, a, b, *length);
    if (!number) m->moved_count = result[0], m->trail_count = result[1], *length = result[2];
    return number;
}

/* length: that of the journal, before and after. Where the call is refused it stays. */
static inline uint16_t wave_plan_memory_strike_recorded(wave_plan_memory *m, uint16_t a, uint16_t b, uint8_t *journal, size_t journal_bytes,
                                                        size_t *length) {
    uint16_t result[WAVE_PLAN_RECORD_RESULTS];
    const uint16_t number = wave_plan_strike_recorded(WAVE_PLAN_CELLS_OF(m), WAVE_PLAN_LISTS_OF(m), WAVE_PLAN_TALLY_OF(m),
                                                      journal, journal_bytes, result, WAVE_PLAN_RECORD_RESULTS, a, b, *length);
    if (!number) m->moved_count = result[0], m->trail_count = result[1], *length = result[2];
    return number;
}

/* field: the field that was refused. left_over: how many bytes at the end were left over. */
static inline uint16_t wave_plan_memory_replay(wave_plan_memory *m, const uint8_t *journal, size_t journal_bytes, uint16_t *field,
                                               size_t *left_over) {
    uint16_t result[WAVE_PLAN_REPLAY_RESULTS];
    const uint16_t number = wave_plan_replay(journal, journal_bytes, WAVE_PLAN_CELLS_OF(m), WAVE_PLAN_LISTS_OF(m), WAVE_PLAN_TALLY_OF(m),
                                             result, WAVE_PLAN_REPLAY_RESULTS);
    m->trail_count = m->moved_count = 0;
    *field = result[0];
    *left_over = result[1];
    return number;
}

/* Memory for a shelf of plans of up to so many banks, with nothing kept. */
static inline uint16_t wave_plan_shelf_new(wave_plan_shelf *s, uint16_t banks) {
    s->cell_count = WAVE_PLAN_SHELF_CELLS(banks);
    s->cells = (uint16_t *)calloc(s->cell_count, sizeof *s->cells);
    return s->cells ? WAVE_PLAN_ACCEPTED : WAVE_PLAN_OUT_OF_MEMORY;
}

/* Gives the memory back. Also after wave_plan_shelf_new found none, and more than once. */
static inline void wave_plan_shelf_free(wave_plan_shelf *s) {
    free(s->cells);
    s->cells = NULL;
}

static inline uint16_t wave_plan_shelf_open(wave_plan_shelf *s, uint16_t banks) {
    return wave_plan_open_shelf(s->cells, s->cell_count, banks);
}

/* name: WAVE_PLAN_MORNING, WAVE_PLAN_NOON or WAVE_PLAN_CLOSE. */
static inline uint16_t wave_plan_memory_keep(const wave_plan_memory *m, wave_plan_shelf *s, const char *name) {
    return wave_plan_keep(WAVE_PLAN_CELLS_OF(m), WAVE_PLAN_TALLY_OF(m), s->cells, s->cell_count, (const uint8_t *)name, strlen(name));
}

/* name: WAVE_PLAN_MORNING, WAVE_PLAN_NOON or WAVE_PLAN_CLOSE. */
static inline uint16_t wave_plan_memory_come_back(wave_plan_memory *m, const wave_plan_shelf *s, const char *name) {
    uint16_t result[WAVE_PLAN_COME_BACK_RESULTS];
    const uint16_t number = wave_plan_come_back(WAVE_PLAN_CELLS_OF(m), m->moved, m->capacity, WAVE_PLAN_TALLY_OF(m),
                                                s->cells, s->cell_count, (const uint8_t *)name, strlen(name),
                                                result, WAVE_PLAN_COME_BACK_RESULTS);
    if (!number) m->moved_count = result[0], m->trail_count = 0;
    return number;
}

/* line: the first line at fault (26). first, second: two banks that clash in one wave, both 0 if there are too many waves and no such
 * pair (27). */
static inline uint16_t wave_plan_memory_check_sheet(const wave_plan_memory *m, const char *sheet, size_t sheet_bytes,
                                                    uint16_t *line, uint16_t *first, uint16_t *second) {
    uint16_t result[WAVE_PLAN_CHECK_SHEET_RESULTS];
    const uint16_t number = wave_plan_check_sheet(WAVE_PLAN_CELLS_OF(m), WAVE_PLAN_TALLY_OF(m), result, WAVE_PLAN_CHECK_SHEET_RESULTS,
                                                  (const uint8_t *)sheet, sheet_bytes);
    *line = result[0];
    *first = result[1];
    *second = result[2];
    return number;
}

#undef WAVE_PLAN_CELLS_OF
#undef WAVE_PLAN_LISTS_OF
#undef WAVE_PLAN_TALLY_OF

#endif
