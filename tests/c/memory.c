/* Calls every function of wave_plan_memory.h, with input that is accepted and with input that is refused, and holds what it answers and
 * leaves to what it should be. It is C and C++. */
#include <stdlib.h>
#include <string.h>

#include "answers.h"

/* The header's memory comes from here, so that there can be none. */
static int no_memory;
static void *calloc_if_any(size_t count, size_t size) { return no_memory ? NULL : calloc(count, size); }
#define calloc calloc_if_any
#include "wave_plan_memory.h"
#undef calloc

enum { BANKS = WAVE_PLAN_TALLY_BANKS, CLASHES = WAVE_PLAN_TALLY_CLASHES, WAVES = WAVE_PLAN_TALLY_WAVES, CAP = WAVE_PLAN_TALLY_CAP };
enum { BANK_CELLS = WAVE_PLAN_ROW_CELLS + WAVE_PLAN_COUNT_CELLS + 5, FOUR = 4 };

/* Memory as it was: the struct, and a copy of the cells of all its slices. */
typedef struct {
    wave_plan_memory m;
    uint16_t *cells;
} Copy;

static size_t bytes_of(const wave_plan_memory *m) { return (BANK_CELLS * m->capacity + 1) * sizeof *m->neighbours; }

static Copy copy_of(const wave_plan_memory *m) {
    Copy copy = {*m, (uint16_t *)malloc(bytes_of(m))};
    if (!copy.cells) exit(2);
    memcpy(copy.cells, m->neighbours, bytes_of(m));
    return copy;
}

/* Whether memory is as it was. The copy is gone. */
static int as_copied(const wave_plan_memory *m, Copy copy) {
    int same = !memcmp(copy.cells, m->neighbours, bytes_of(m)) && !memcmp(copy.m.tally, m->tally, sizeof m->tally) &&
               copy.m.trail_count == m->trail_count && copy.m.moved_count == m->moved_count;
    free(copy.cells);
    return same;
}

/* A call on `m` that gives a number and leaves the memory as it was: a refused one, or one that reads. */
#define LEAVES(wanted, call)        \
    do {                            \
        Copy copy = copy_of(&m);    \
        GIVES(wanted, call);        \
        IS(as_copied(&m, copy), 1); \
    } while (0)

/* What a call on the plan in `m`, of as many banks as there is memory for, gives if the slices are short, if there is no plan, and if there
 * are too many banks. */
#define WRONG_MEMORY(call)                                         \
    do {                                                           \
        const uint16_t banks = m.tally[BANKS], cap = m.tally[CAP]; \
        m.capacity--;                                              \
        LEAVES(2, call);                                           \
        m.capacity++;                                              \
        m.tally[CAP] = 0;                                          \
        LEAVES(3, call);                                           \
        m.tally[CAP] = cap;                                        \
        m.tally[BANKS] = WAVE_PLAN_MOST_BANKS + 1;                 \
        LEAVES(1, call);                                           \
        m.tally[BANKS] = banks;                                    \
    } while (0)

static void are(int line, const uint16_t *cells, const uint16_t *wanted, size_t count) {
    for (size_t i = 0; i < count; i++) right(__FILE__, line, cells[i], wanted[i]);
}
#define ARE(cells, wanted) are(__LINE__, cells, wanted, sizeof(wanted) / sizeof *(wanted))

/* The lists of the last edit, each of which is an array. */
#define EDITED(trail_wanted, moved_wanted)                                \
    do {                                                                  \
        IS(m.trail_count, sizeof(trail_wanted) / sizeof *(trail_wanted)); \
        IS(m.moved_count, sizeof(moved_wanted) / sizeof *(moved_wanted)); \
        ARE(m.trail, trail_wanted);                                       \
        ARE(m.moved, moved_wanted);                                       \
    } while (0)

static uint16_t read_list(wave_plan_memory *m, const char *list, uint16_t *row) {
    return wave_plan_memory_read_list(m, list, strlen(list), row);
}

/* Memory for so many banks with the plan of a list. */
static wave_plan_memory plan_of(const char *list, uint16_t banks) {
    wave_plan_memory m;
    uint16_t row;
    GIVES(0, wave_plan_memory_new(&m, banks));
    GIVES(0, read_list(&m, list, &row));
    IS(row, 0);
    return m;
}

/* The four banks of the paper: 0-1, 1-2, 2-3, 0-3. And the six of its M8: two waves, and a third if 2 and 5 are struck. */
static const char four[] = "N 4\n+ 0 1\n+ 1 2\n+ 2 3\n+ 0 3", six[] = "N 6\n+ 0 4\n+ 0 2\n+ 2 3\n+ 1 3\n+ 1 5\n+ 2 5";
static const char four_sheet[] = "WAVES 2\nA 0 2\nB 1 3\nTOTAL 4 4\n";

static void of_new(void) {
    wave_plan_memory m;
    no_memory = 1;
    IS(wave_plan_memory_new(&m, FOUR), WAVE_PLAN_OUT_OF_MEMORY);
    wave_plan_memory_free(&m);
    no_memory = 0;
    GIVES(0, wave_plan_memory_new(&m, FOUR));
    IS(m.capacity, FOUR);
    IS(m.degrees - m.neighbours, WAVE_PLAN_ROW_CELLS * FOUR);
    IS(m.waves - m.degrees, FOUR);
    IS(m.counts - m.waves, FOUR);
    IS(m.ranks - m.counts, WAVE_PLAN_COUNT_CELLS * FOUR);
    IS(m.trail - m.ranks, FOUR);
    IS(m.moved - m.trail, FOUR);
    IS(m.trail_count + m.moved_count, 0);
    LEAVES(3, wave_plan_memory_add(&m, 0, 1)); /* no plan is open */
    wave_plan_memory_free(&m);
    GIVES(0, wave_plan_memory_new(&m, 0));
    const uint16_t *const slices[] = {m.neighbours, m.degrees, m.waves, m.counts, m.ranks, m.trail, m.moved};
    for (size_t i = 0; i < sizeof slices / sizeof *slices; i++) IS(slices[i] != NULL, 1);
    GIVES(0, wave_plan_memory_open(&m, 0));
    LEAVES(2, wave_plan_memory_open(&m, 1));
    LEAVES(4, wave_plan_memory_add(&m, 0, 1));
    wave_plan_memory_free(&m);
}

static void of_free(void) {
    wave_plan_memory m = plan_of(four, FOUR);
    wave_plan_memory_free(&m);
    IS(m.neighbours == NULL, 1);
    wave_plan_memory_free(&m); /* once more */
    GIVES(0, wave_plan_memory_new(&m, 2));
    IS(m.tally[BANKS] + m.tally[CAP], 0); /* nothing of the plan before */
    wave_plan_memory_free(&m);
}

static void of_open(void) {
    wave_plan_memory m;
    GIVES(0, wave_plan_memory_new(&m, FOUR));
    LEAVES(1, wave_plan_memory_open(&m, WAVE_PLAN_MOST_BANKS + 1));
    LEAVES(2, wave_plan_memory_open(&m, FOUR + 1));
    GIVES(0, wave_plan_memory_open(&m, FOUR));
    static const uint16_t open[] = {FOUR, 0, 1, WAVE_PLAN_MOST_CAP}, fewer[] = {2, 0, 1, WAVE_PLAN_MOST_CAP};
    ARE(m.tally, open);
    for (int i = 0; i < WAVE_PLAN_ROW_CELLS * FOUR; i++) IS(m.neighbours[i], WAVE_PLAN_UNUSED);
    GIVES(0, wave_plan_memory_add(&m, 0, 1));
    LEAVES(2, wave_plan_memory_open(&m, FOUR + 1)); /* the counts of the edit too */
    IS(m.trail_count, 2);
    GIVES(0, wave_plan_memory_open(&m, 2)); /* fewer banks than there is memory for */
    ARE(m.tally, fewer);
    IS(m.trail_count + m.moved_count, 0);
    wave_plan_memory_free(&m);
    GIVES(0, wave_plan_memory_new(&m, WAVE_PLAN_MOST_BANKS + 1));
    GIVES(0, wave_plan_memory_open(&m, WAVE_PLAN_MOST_BANKS));
    LEAVES(1, wave_plan_memory_open(&m, WAVE_PLAN_MOST_BANKS + 1));
    wave_plan_memory_free(&m);
}

static void of_add(void) {
    wave_plan_memory m = plan_of("N 3", 3);
    static const uint16_t trail_2[] = {1, 2}, moved_2[] = {2}, trail_3[] = {1, 0}, moved_3[] = {0}, all[] = {0, 1, 2};
    GIVES(0, wave_plan_memory_add(&m, 1, 2)); /* M2 to M4 of the paper */
    EDITED(trail_2, moved_2);
    GIVES(0, wave_plan_memory_add(&m, 0, 1));
    EDITED(trail_3, moved_3);
    LEAVES(4, wave_plan_memory_add(&m, 0, 3));
    LEAVES(5, wave_plan_memory_add(&m, 2, 2));
    LEAVES(6, wave_plan_memory_add(&m, 1, 0));
    GIVES(0, wave_plan_memory_set_cap(&m, 2));
    LEAVES(20, wave_plan_memory_add(&m, 0, 2));
    EDITED(trail_3, moved_3); /* those of the last accepted edit */
    GIVES(0, wave_plan_memory_set_cap(&m, 3));
    WRONG_MEMORY(wave_plan_memory_add(&m, 0, 2));
    GIVES(0, wave_plan_memory_add(&m, 0, 2));
    EDITED(all, all);
    ARE(m.waves, all);
    IS(m.tally[CLASHES], 3);
    wave_plan_memory_free(&m);
    m = plan_of("N 25", 25);
    for (uint16_t b = 1; b < 24; b++) GIVES(0, wave_plan_memory_add(&m, 0, b));
    LEAVES(8, wave_plan_memory_add(&m, 24, 0));
    wave_plan_memory_free(&m);
    m = plan_of("N 3", 8); /* fewer banks than there is memory for */
    m.ranks[1] = WAVE_PLAN_MOST_RANK; /* bank 2 is now earlier than bank 1 */
    GIVES(0, wave_plan_memory_add(&m, 1, 2));
    static const uint16_t turned[] = {2, 1}, one[] = {1};
    EDITED(turned, one);
    wave_plan_memory_free(&m);
}

static void of_strike(void) {
    wave_plan_memory m = plan_of(six, 6);
    LEAVES(4, wave_plan_memory_strike(&m, 6, 0));
    LEAVES(5, wave_plan_memory_strike(&m, 1, 1));
    LEAVES(7, wave_plan_memory_strike(&m, 0, 1));
    GIVES(0, wave_plan_memory_set_cap(&m, 2));
    LEAVES(20, wave_plan_memory_strike(&m, 2, 5));
    GIVES(0, wave_plan_memory_set_cap(&m, 4));
    WRONG_MEMORY(wave_plan_memory_strike(&m, 2, 5));
    GIVES(0, wave_plan_memory_strike(&m, 2, 5)); /* M9 */
    static const uint16_t trail[] = {0, 2, 3, 4, 5}, moved[] = {0, 2, 3, 4}, waves[] = {0, 0, 1, 2, 1, 1};
    EDITED(trail, moved);
    ARE(m.waves, waves);
    IS(m.tally[WAVES], 3);
    IS(m.tally[CAP], 4);
    LEAVES(7, wave_plan_memory_strike(&m, 2, 5));
    EDITED(trail, moved);
    wave_plan_memory_free(&m);
}

static void of_set_cap(void) {
    wave_plan_memory m = plan_of(four, FOUR);
    LEAVES(19, wave_plan_memory_set_cap(&m, 0));
    LEAVES(19, wave_plan_memory_set_cap(&m, WAVE_PLAN_MOST_CAP + 1));
    LEAVES(20, wave_plan_memory_set_cap(&m, 1)); /* two waves are in use */
    WRONG_MEMORY(wave_plan_memory_set_cap(&m, 2));
    GIVES(0, wave_plan_memory_set_cap(&m, 2));
    static const uint16_t tally[] = {4, 4, 2, 2};
    ARE(m.tally, tally);
    wave_plan_memory_free(&m);
}

static void of_wave_of(void) {
    wave_plan_memory m = plan_of(four, FOUR);
    uint16_t wave;
    for (uint16_t b = 0; b < FOUR; b++) {
        LEAVES(0, wave_plan_memory_wave_of(&m, b, &wave));
        IS(wave, b % 2);
    }
    LEAVES(4, wave_plan_memory_wave_of(&m, FOUR, &wave));
    IS(wave, 0);
    WRONG_MEMORY(wave_plan_memory_wave_of(&m, 1, &wave));
    IS(wave, 0);
    GIVES(0, wave_plan_memory_strike(&m, 0, 3)); /* M7; the counts stay while waves are asked for */
    static const uint16_t moved[] = {1, 2, 0, 3}, waves[] = {0, 1, 1, 0};
    IS(m.moved_count, 4);
    ARE(m.moved, moved);
    for (int i = 0; i < m.moved_count; i++) {
        LEAVES(0, wave_plan_memory_wave_of(&m, m.moved[i], &wave));
        IS(wave, waves[i]);
    }
    wave_plan_memory_free(&m);
}

static void of_clashes_of(void) {
    wave_plan_memory m = plan_of(four, FOUR);
    const uint16_t *first;
    uint16_t count;
    static const uint16_t clashes[] = {0, 2};
    LEAVES(0, wave_plan_memory_clashes_of(&m, 3, &first, &count));
    IS(count, 2);
    ARE(first, clashes);
    LEAVES(4, wave_plan_memory_clashes_of(&m, FOUR, &first, &count));
    IS(count, 0);
    IS(first != NULL, 1);
    count = 7;
    WRONG_MEMORY(wave_plan_memory_clashes_of(&m, 3, &first, &count));
    IS(count, 0);
    wave_plan_memory_free(&m);
}

static void of_wave_bound(void) {
    wave_plan_memory m = plan_of(four, FOUR);
    uint16_t waves;
    LEAVES(0, wave_plan_memory_wave_bound(&m, &waves));
    IS(waves, 3); /* four banks of degree 2, in two waves */
    WRONG_MEMORY(wave_plan_memory_wave_bound(&m, &waves));
    IS(waves, 0);
    wave_plan_memory_free(&m);
}

static void of_wave_by_rule(void) {
    wave_plan_memory m = plan_of(four, FOUR);
    uint16_t wave;
    for (uint16_t b = 0; b < FOUR; b++) {
        LEAVES(0, wave_plan_memory_wave_by_rule(&m, b, &wave));
        IS(wave, b % 2);
    }
    LEAVES(4, wave_plan_memory_wave_by_rule(&m, FOUR, &wave));
    IS(wave, 0);
    WRONG_MEMORY(wave_plan_memory_wave_by_rule(&m, 1, &wave));
    IS(wave, 0);
    wave_plan_memory_free(&m);
    m = plan_of("N 17\n+ 0 1", 17);
    LEAVES(22, wave_plan_memory_wave_by_rule(&m, 1, &wave));
    IS(wave, 0);
    LEAVES(0, wave_plan_memory_wave_of(&m, 1, &wave));
    IS(wave, 1);
    wave_plan_memory_free(&m);
}

static void of_crew_steps(void) {
    wave_plan_memory m = plan_of("N 6\n+ 0 1\n+ 1 2", 6); /* waves 1 0 1 0 0 0 */
    uint16_t steps[7] = {7, 7, 7, 7, 7, 7, 7}, total;
    static const uint16_t untouched[] = {7, 7, 7, 7, 7, 7, 7}, three[] = {3, 1, 3, 1, 1, 2, 7};
    LEAVES(24, wave_plan_memory_crew_steps(&m, 0, steps, 6, &total));
    IS(total, 0);
    LEAVES(24, wave_plan_memory_crew_steps(&m, WAVE_PLAN_MOST_COURIERS + 1, steps, 6, &total));
    LEAVES(2, wave_plan_memory_crew_steps(&m, 3, steps, 5, &total));
    WRONG_MEMORY(wave_plan_memory_crew_steps(&m, 3, steps, 6, &total));
    IS(total, 0);
    ARE(steps, untouched);
    LEAVES(0, wave_plan_memory_crew_steps(&m, 3, steps, 7, &total));
    IS(total, 3);
    ARE(steps, three);
    wave_plan_memory_free(&m);
}

static void of_least_crew(void) {
    wave_plan_memory m = plan_of("N 6\n+ 0 1\n+ 1 2", 6); /* waves of four and of two banks */
    uint16_t couriers;
    LEAVES(0, wave_plan_memory_least_crew(&m, 2, &couriers));
    IS(couriers, 4);
    LEAVES(0, wave_plan_memory_least_crew(&m, 3, &couriers));
    IS(couriers, 2);
    LEAVES(25, wave_plan_memory_least_crew(&m, 1, &couriers));
    IS(couriers, 0);
    LEAVES(24, wave_plan_memory_least_crew(&m, WAVE_PLAN_MOST_LIMIT + 1, &couriers));
    WRONG_MEMORY(wave_plan_memory_least_crew(&m, 3, &couriers));
    IS(couriers, 0);
    wave_plan_memory_free(&m);
}

static void of_read_list(void) {
    wave_plan_memory m;
    uint16_t row;
    GIVES(0, wave_plan_memory_new(&m, FOUR));
    static const struct {
        const char *list;
        uint16_t number, row;
    } refused[] = {{"", 10, 1},          {"V 2\nN", 10, 2},    {"N 1025", 1, 1},        {"N 5", 2, 1},
                   {"N 4\nx", 11, 2},    {"N 4\n+ 0 4", 4, 2}, {"N 4\n+ 0 0", 5, 2},    {"N 4\n- 0 1\n", 7, 2},
                   {"N 4\nK 4 0", 4, 2}, {"N 4\nD 0\nK 0 1", 18, 3}, {"V 2\nN 4\nD 0", 23, 3}, {"N 4\nK 3 5\n+ 0 1\n+ 0 1", 6, 4}};
    for (size_t i = 0; i < sizeof refused / sizeof *refused; i++) {
        GIVES(refused[i].number, read_list(&m, refused[i].list, &row));
        IS(row, refused[i].row);
    }
    IS(m.tally[CLASHES], 1); /* the rows before the one refused */
    IS(m.ranks[3], 5);
    IS(m.moved[0], 1);
    char *longest = (char *)calloc(WAVE_PLAN_MOST_LIST_BYTES + 1, 1);
    if (!longest) exit(2);
    LEAVES(9, wave_plan_memory_read_list(&m, longest, WAVE_PLAN_MOST_LIST_BYTES + 1, &row));
    IS(row, 0);
    LEAVES(10, wave_plan_memory_read_list(&m, longest, WAVE_PLAN_MOST_LIST_BYTES, &row));
    free(longest);
    GIVES(0, wave_plan_memory_add(&m, 2, 3));
    IS(m.trail_count + m.moved_count, 3);
    GIVES(0, read_list(&m, four, &row));
    static const uint16_t tally[] = {4, 4, 2, WAVE_PLAN_MOST_CAP}, last[] = {0, 1, 2, 3};
    IS(row, 0);
    ARE(m.tally, tally);
    ARE(m.trail, last);
    IS(m.trail_count + m.moved_count, 0);
    GIVES(0, wave_plan_memory_strike(&m, 0, 1));
    GIVES(10, read_list(&m, "", &row));
    IS(m.trail_count + m.moved_count, 0); /* of a list that is refused, too */
    wave_plan_memory_free(&m);
}

static void of_write_sheet(void) {
    wave_plan_memory m = plan_of(four, FOUR);
    char out[WAVE_PLAN_MOST_SHEET_BYTES] = "";
    size_t bytes = strlen(four_sheet), length;
    LEAVES(12, wave_plan_memory_write_sheet(&m, out, bytes - 1, &length));
    IS(length, 0);
    WRONG_MEMORY(wave_plan_memory_write_sheet(&m, out, bytes, &length));
    IS(length, 0);
    IS(out[0], 0);
    LEAVES(0, wave_plan_memory_write_sheet(&m, out, bytes, &length));
    IS(length, bytes);
    IS(memcmp(out, four_sheet, bytes), 0);
    IS(out[bytes], 0);
    wave_plan_memory_free(&m);
}

static void of_write_poster(void) {
    wave_plan_memory m = plan_of(four, FOUR);
    enum { LINE = 41, PAGE = 50 * LINE };
    static const char first[] = "A     0    2 ", foot[] = "TOTAL 4 4 ";
    char out[WAVE_PLAN_MOST_POSTER_BYTES] = "";
    size_t length;
    LEAVES(12, wave_plan_memory_write_poster(&m, out, PAGE - 1, &length));
    IS(length, 0);
    WRONG_MEMORY(wave_plan_memory_write_poster(&m, out, PAGE, &length));
    IS(length, 0);
    IS(out[0], 0);
    LEAVES(0, wave_plan_memory_write_poster(&m, out, PAGE, &length));
    IS(length, PAGE);
    IS(memcmp(out, first, strlen(first)), 0);
    IS(memcmp(out + 2 * LINE, foot, strlen(foot)), 0);
    IS(out[PAGE - 1], '\n');
    IS(out[PAGE], 0);
    wave_plan_memory_free(&m);
}

enum { FIRST = WAVE_PLAN_FIRST_BYTES, ENTRY = WAVE_PLAN_ENTRY_BYTES, ALL = FIRST + 4 * ENTRY, MORE = ALL + ENTRY };

/* An entry: tag, length, edit number, and two banks, or a bank and its rank. */
#define FIELD(tag, number, a, b) tag, 8, 0, number, 0, 0, 0, a, 0, b, 0

/* The journal of the four banks, lowest pair first. */
static const uint8_t journal[ALL] = {WAVE_PLAN_FIRST_TAG, 2, 0, 4, 0,
                                     FIELD(WAVE_PLAN_ADD_TAG, 1, 0, 1), FIELD(WAVE_PLAN_ADD_TAG, 2, 0, 3),
                                     FIELD(WAVE_PLAN_ADD_TAG, 3, 1, 2), FIELD(WAVE_PLAN_ADD_TAG, 4, 2, 3)};

static void of_start_journal(void) {
    wave_plan_memory m = plan_of(four, FOUR);
    uint8_t bytes[MORE] = {0};
    size_t length;
    LEAVES(15, wave_plan_memory_start_journal(&m, bytes, ALL - 1, &length));
    IS(length, 0);
    WRONG_MEMORY(wave_plan_memory_start_journal(&m, bytes, MORE, &length));
    IS(length, 0);
    IS(bytes[0], 0);
    LEAVES(0, wave_plan_memory_start_journal(&m, bytes, MORE, &length));
    IS(length, ALL);
    IS(memcmp(bytes, journal, ALL), 0);
    IS(bytes[ALL], 0);
    wave_plan_memory_free(&m);
}

/* A recorded edit: the call is one of two. */
typedef uint16_t Recorded(wave_plan_memory *, uint16_t, uint16_t, uint8_t *, size_t, size_t *);

/* What both refuse, of an edit that is acceptable on the four banks. Neither the journal nor its length changes. */
static void refused_records(Recorded *call, uint16_t a, uint16_t b) {
    wave_plan_memory m = plan_of(four, FOUR);
    uint8_t bytes[MORE] = {0}, before[MORE];
    memcpy(bytes, journal, ALL);
    const struct {
        size_t length;
        uint16_t number;
    } lengths[] = {{WAVE_PLAN_MOST_JOURNAL_BYTES + 1, 9}, {MORE + 1, 13}, {FIRST - 1, 13}, {ALL - 1, 14}, {MORE, 14}};
    for (size_t i = 0; i < sizeof lengths / sizeof *lengths; i++) {
        size_t length = lengths[i].length;
        LEAVES(lengths[i].number, call(&m, a, b, bytes, MORE, &length));
        IS(length, lengths[i].length);
    }
    size_t length = ALL;
    LEAVES(4, call(&m, a, FOUR, bytes, MORE, &length));
    LEAVES(5, call(&m, a, a, bytes, MORE, &length));
    LEAVES(15, call(&m, a, b, bytes, MORE - 1, &length));
    WRONG_MEMORY(call(&m, a, b, bytes, MORE, &length));
    IS(memcmp(bytes, journal, ALL) || bytes[ALL], 0);
    bytes[FIRST + ENTRY] = WAVE_PLAN_RANK_TAG; /* after an add */
    memcpy(before, bytes, MORE);
    LEAVES(18, call(&m, a, b, bytes, MORE, &length));
    IS(memcmp(bytes, before, MORE), 0);
    bytes[FIRST + ENTRY + 3]++; /* and the number is 3 */
    LEAVES(21, call(&m, a, b, bytes, MORE, &length));
    IS(length, ALL);
    wave_plan_memory_free(&m);
}

/* The journal after an accepted edit: its new length, and its last field. */
static void recorded(const uint8_t *bytes, size_t length, uint8_t tag, uint8_t a, uint8_t b) {
    const uint8_t wanted[ENTRY] = {FIELD(tag, 5, a, b)};
    IS(length, MORE);
    IS(memcmp(bytes, journal, ALL), 0);
    IS(memcmp(bytes + ALL, wanted, ENTRY), 0);
}

static void of_add_recorded(void) {
    refused_records(wave_plan_memory_add_recorded, 2, 0);
    wave_plan_memory m = plan_of(four, FOUR);
    uint8_t bytes[MORE];
    size_t length;
    GIVES(0, wave_plan_memory_start_journal(&m, bytes, MORE, &length));
    LEAVES(6, wave_plan_memory_add_recorded(&m, 0, 1, bytes, MORE, &length));
    GIVES(0, wave_plan_memory_set_cap(&m, 2));
    LEAVES(20, wave_plan_memory_add_recorded(&m, 2, 0, bytes, MORE, &length));
    IS(length, ALL);
    GIVES(0, wave_plan_memory_set_cap(&m, 3));
    GIVES(0, wave_plan_memory_add_recorded(&m, 2, 0, bytes, MORE, &length));
    static const uint16_t trail[] = {0, 2, 1, 3}, moved[] = {2, 1, 3};
    EDITED(trail, moved);
    recorded(bytes, length, WAVE_PLAN_ADD_TAG, 2, 0);
    wave_plan_memory_free(&m);
}

static void of_strike_recorded(void) {
    refused_records(wave_plan_memory_strike_recorded, 3, 0);
    wave_plan_memory m = plan_of(four, FOUR);
    uint8_t bytes[MORE];
    size_t length;
    GIVES(0, wave_plan_memory_start_journal(&m, bytes, MORE, &length));
    LEAVES(7, wave_plan_memory_strike_recorded(&m, 0, 2, bytes, MORE, &length));
    IS(length, ALL);
    GIVES(0, wave_plan_memory_strike_recorded(&m, 1, 0, bytes, MORE, &length)); /* two banks turn over, and none moves */
    static const uint16_t trail[] = {2, 3, 0, 1};
    IS(m.trail_count, 4);
    IS(m.moved_count, 0);
    ARE(m.trail, trail);
    recorded(bytes, length, WAVE_PLAN_STRIKE_TAG, 1, 0);
    wave_plan_memory_free(&m);
}

static void of_replay(void) {
    wave_plan_memory m;
    uint16_t field;
    size_t left_over;
    GIVES(0, wave_plan_memory_new(&m, FOUR));
    GIVES(0, wave_plan_memory_replay(&m, journal, ALL, &field, &left_over));
    static const uint16_t tally[] = {4, 4, 2, WAVE_PLAN_MOST_CAP};
    IS(field + left_over, 0);
    ARE(m.tally, tally);
    GIVES(0, wave_plan_memory_strike(&m, 0, 1));
    GIVES(0, wave_plan_memory_replay(&m, journal, ALL - 1, &field, &left_over)); /* cut inside its last field */
    IS(field, 0);
    IS(left_over, ENTRY - 1);
    IS(m.tally[CLASHES], 3);
    IS(m.trail_count + m.moved_count, 0);
    LEAVES(13, wave_plan_memory_replay(&m, journal, FIRST - 1, &field, &left_over));
    IS(field, 1);
    uint8_t bytes[ALL];
    memcpy(bytes, journal, ALL);
    bytes[FIRST + 2 * ENTRY] = 'x';
    GIVES(14, wave_plan_memory_replay(&m, bytes, ALL, &field, &left_over));
    IS(field, 4);
    IS(left_over, 0);
    IS(m.tally[CLASHES], 2); /* the fields before the one refused */
    bytes[3] = FOUR + 1;
    LEAVES(2, wave_plan_memory_replay(&m, bytes, ALL, &field, &left_over));
    IS(field, 1);
    uint8_t *longest = (uint8_t *)calloc(WAVE_PLAN_MOST_JOURNAL_BYTES + 1, 1);
    if (!longest) exit(2);
    LEAVES(9, wave_plan_memory_replay(&m, longest, WAVE_PLAN_MOST_JOURNAL_BYTES + 1, &field, &left_over));
    IS(field, 0);
    free(longest);
    GIVES(0, wave_plan_memory_strike(&m, 0, 1));
    GIVES(13, wave_plan_memory_replay(&m, journal, 0, &field, &left_over));
    IS(m.trail_count + m.moved_count, 0); /* of a journal that is refused, too */
    wave_plan_memory_free(&m);
}

static void of_shelf_new(void) {
    wave_plan_memory m = plan_of(four, FOUR);
    wave_plan_shelf s;
    no_memory = 1;
    IS(wave_plan_shelf_new(&s, FOUR), WAVE_PLAN_OUT_OF_MEMORY);
    wave_plan_shelf_free(&s);
    no_memory = 0;
    GIVES(0, wave_plan_shelf_new(&s, 0));
    IS(s.cells != NULL, 1);
    LEAVES(2, wave_plan_memory_keep(&m, &s, WAVE_PLAN_NOON));
    wave_plan_shelf_free(&s);
    GIVES(0, wave_plan_shelf_new(&s, FOUR));
    IS(s.cell_count, WAVE_PLAN_SHELF_CELLS(FOUR));
    LEAVES(17, wave_plan_memory_come_back(&m, &s, WAVE_PLAN_MORNING));
    LEAVES(17, wave_plan_memory_come_back(&m, &s, WAVE_PLAN_NOON));
    LEAVES(17, wave_plan_memory_come_back(&m, &s, WAVE_PLAN_CLOSE));
    wave_plan_shelf_free(&s);
    wave_plan_memory_free(&m);
}

static void of_shelf_free(void) {
    wave_plan_shelf s;
    GIVES(0, wave_plan_shelf_new(&s, FOUR));
    wave_plan_shelf_free(&s);
    IS(s.cells == NULL, 1);
    wave_plan_shelf_free(&s); /* once more */
}

static void of_shelf_open(void) {
    wave_plan_memory m = plan_of(four, FOUR);
    wave_plan_shelf s;
    GIVES(0, wave_plan_shelf_new(&s, FOUR));
    GIVES(1, wave_plan_shelf_open(&s, WAVE_PLAN_MOST_BANKS + 1));
    GIVES(2, wave_plan_shelf_open(&s, FOUR + 1));
    s.cell_count--;
    GIVES(2, wave_plan_shelf_open(&s, FOUR));
    s.cell_count++;
    GIVES(0, wave_plan_memory_keep(&m, &s, WAVE_PLAN_CLOSE));
    GIVES(0, wave_plan_memory_come_back(&m, &s, WAVE_PLAN_CLOSE));
    GIVES(0, wave_plan_shelf_open(&s, FOUR));
    LEAVES(17, wave_plan_memory_come_back(&m, &s, WAVE_PLAN_CLOSE)); /* what was kept is gone */
    wave_plan_shelf_free(&s);
    wave_plan_memory_free(&m);
}

static void of_keep(void) {
    wave_plan_memory m = plan_of(four, FOUR);
    wave_plan_shelf s;
    GIVES(0, wave_plan_shelf_new(&s, FOUR));
    LEAVES(16, wave_plan_memory_keep(&m, &s, "NOON"));
    LEAVES(16, wave_plan_memory_keep(&m, &s, WAVE_PLAN_NOON " "));
    WRONG_MEMORY(wave_plan_memory_keep(&m, &s, WAVE_PLAN_NOON));
    s.cell_count--;
    LEAVES(2, wave_plan_memory_keep(&m, &s, WAVE_PLAN_NOON));
    s.cell_count++;
    static const char *const names[] = {WAVE_PLAN_MORNING, WAVE_PLAN_NOON, WAVE_PLAN_CLOSE};
    for (int i = 0; i < WAVE_PLAN_PLACES; i++) {
        const uint16_t *place = s.cells + i * WAVE_PLAN_PLACE_CELLS(FOUR);
        IS(place[0], 0);
        LEAVES(0, wave_plan_memory_keep(&m, &s, names[i]));
        IS(place[0], 1);
        IS(memcmp(place + 1, m.neighbours, WAVE_PLAN_ROW_CELLS * FOUR * sizeof *place), 0);
    }
    s.cells[0] = 2;
    LEAVES(3, wave_plan_memory_keep(&m, &s, WAVE_PLAN_NOON));
    wave_plan_shelf_free(&s);
    wave_plan_memory_free(&m);
}

static void of_come_back(void) {
    wave_plan_memory m = plan_of(four, FOUR);
    wave_plan_shelf s;
    uint16_t row;
    GIVES(0, wave_plan_shelf_new(&s, FOUR));
    GIVES(0, wave_plan_shelf_open(&s, FOUR));
    GIVES(0, wave_plan_memory_set_cap(&m, 2));
    GIVES(0, wave_plan_memory_keep(&m, &s, WAVE_PLAN_NOON));
    GIVES(0, read_list(&m, four, &row));
    GIVES(0, wave_plan_memory_add(&m, 0, 2)); /* waves 0 2 1 2 */
    IS(m.trail_count, 4);
    LEAVES(16, wave_plan_memory_come_back(&m, &s, "noon    "));
    LEAVES(16, wave_plan_memory_come_back(&m, &s, WAVE_PLAN_NOON " "));
    LEAVES(17, wave_plan_memory_come_back(&m, &s, WAVE_PLAN_CLOSE));
    WRONG_MEMORY(wave_plan_memory_come_back(&m, &s, WAVE_PLAN_NOON));
    s.cell_count--;
    LEAVES(2, wave_plan_memory_come_back(&m, &s, WAVE_PLAN_NOON));
    s.cell_count++;
    GIVES(0, wave_plan_memory_come_back(&m, &s, WAVE_PLAN_NOON));
    static const uint16_t moved[] = {1, 2, 3}, waves[] = {0, 1, 0, 1}, tally[] = {4, 4, 2, 2};
    IS(m.moved_count, 3);
    IS(m.trail_count, 0);
    ARE(m.moved, moved);
    ARE(m.waves, waves);
    ARE(m.tally, tally); /* the cap is that of the plan kept */
    wave_plan_shelf_free(&s);
    wave_plan_memory_free(&m);
}

static uint16_t check_sheet(const wave_plan_memory *m, const char *sheet, uint16_t found[3]) {
    return wave_plan_memory_check_sheet(m, sheet, strlen(sheet), &found[0], &found[1], &found[2]);
}

static void of_check_sheet(void) {
    wave_plan_memory m = plan_of(four, FOUR);
    static const struct {
        const char *sheet;
        uint16_t number, found[3];
    } sheets[] = {{four_sheet, 0, {0, 0, 0}},
                  {"WAVES 2\nA 1 3\nB 0 2\nTOTAL 4 4\n", 0, {0, 0, 0}}, /* not the planner's */
                  {"", 26, {1, 0, 0}},
                  {"WAVES 2\nA 0 2\nB 2 3\nTOTAL 4 4\n", 26, {3, 0, 0}},
                  {"WAVES 2\nA 0 2\nB 1 3\nTOTAL 4 4", 26, {4, 0, 0}},
                  {"WAVES 2\nA 0\nB 1 2 3\nTOTAL 4 4\n", 27, {0, 1, 2}},
                  {"WAVES 3\nA 0\nB 1 3\nC 2\nTOTAL 4 4\n", 27, {0, 0, 0}}}; /* a wave more than the plan's */
    uint16_t found[3];
    for (size_t i = 0; i < sizeof sheets / sizeof *sheets; i++) {
        LEAVES(sheets[i].number, check_sheet(&m, sheets[i].sheet, found));
        ARE(found, sheets[i].found);
    }
    static const uint16_t none[] = {0, 0, 0};
    found[0] = found[1] = found[2] = 7;
    WRONG_MEMORY(check_sheet(&m, "", found));
    ARE(found, none);
    wave_plan_memory_free(&m);
}

int main(void) {
    static const Test tests[] = {{"wave_plan_memory_new", of_new},
                                 {"wave_plan_memory_free", of_free},
                                 {"wave_plan_memory_open", of_open},
                                 {"wave_plan_memory_add", of_add},
                                 {"wave_plan_memory_strike", of_strike},
                                 {"wave_plan_memory_set_cap", of_set_cap},
                                 {"wave_plan_memory_wave_of", of_wave_of},
                                 {"wave_plan_memory_clashes_of", of_clashes_of},
                                 {"wave_plan_memory_wave_bound", of_wave_bound},
                                 {"wave_plan_memory_wave_by_rule", of_wave_by_rule},
                                 {"wave_plan_memory_crew_steps", of_crew_steps},
                                 {"wave_plan_memory_least_crew", of_least_crew},
                                 {"wave_plan_memory_read_list", of_read_list},
                                 {"wave_plan_memory_write_sheet", of_write_sheet},
                                 {"wave_plan_memory_write_poster", of_write_poster},
                                 {"wave_plan_memory_start_journal", of_start_journal},
                                 {"wave_plan_memory_add_recorded", of_add_recorded},
                                 {"wave_plan_memory_strike_recorded", of_strike_recorded},
                                 {"wave_plan_memory_replay", of_replay},
                                 {"wave_plan_shelf_new", of_shelf_new},
                                 {"wave_plan_shelf_free", of_shelf_free},
                                 {"wave_plan_shelf_open", of_shelf_open},
                                 {"wave_plan_memory_keep", of_keep},
                                 {"wave_plan_memory_come_back", of_come_back},
                                 {"wave_plan_memory_check_sheet", of_check_sheet}};
    RUN(tests);
    return 0;
}
