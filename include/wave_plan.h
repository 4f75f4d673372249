/* Wave plans of a locker depot, in memory that the caller lends.
 *
 * Each function is proved to answer and leave what the planner's definitions give for what it is lent, whatever that is. It
 * returns 0 if the call was accepted, else one of the numbers WAVE_PLAN_... below.
 *
 * A slice is two arguments: a pointer to its first cell and its number of cells. The pointer must be valid for so many cells, not
 * null and aligned, also where the number is 0. A slice that is not const must not overlap any other slice of the same call; const
 * slices may overlap each other. Slices may be longer than asked: cells beyond the stated number are never changed.
 *
 * tally    four cells: banks, clashes, waves, cap. The caller keeps them with the plan and changes them only through these calls.
 * result   the further answers of a call, from the front. Where the call is refused they are 0, but for a list and a replay, whose
 *          result[0] is then the row or the field that was refused, and for check_sheet, where they say what is wrong with the sheet.
 * A tally slice of fewer than four cells, or a result slice shorter than the call's, gets 2 first of all, and nothing is changed.
 * Apart from its result cells a refused call changes nothing (see wave_plan_read_list and wave_plan_replay for the rows or fields
 * before the one refused).
 *
 * No call allocates, and none keeps a pointer. Those that ask whether the memory holds a plan, which are all but open, open_shelf, a
 * list and a replay, need up to 56 KB of stack, a list and a replay up to 24 KB, open and open_shelf less than 8 KB.
 */
#ifndef WAVE_PLAN_H
#define WAVE_PLAN_H

#include <stddef.h>
#include <stdint.h>

#ifdef __cplusplus
extern "C" {
#endif

/* Plan memory of n banks, numbered 0 to n - 1. All cells are 16-bit and unsigned.
 *   neighbours   23 * n cells. The row of bank b starts at cell 23 * b: the banks that clash with it, ascending, then 65535 in the
 *                cells left over.
 *   degrees      n cells. How many banks clash with b.
 *   waves        n cells. The wave of b.
 *   counts       24 * n cells. Cell 24 * b + c: how many neighbours of b that are earlier than b stand in wave c.
 *   ranks        n cells. The rank of b, 0 to 9999; 0 after opening. Of two banks with as many clashes the one of the smaller rank
 *                is earlier; of equal ranks, the one of the smaller number. They are set by the K rows of a list, the K fields of a
 *                journal and the return to a kept plan, and by no edit. A plan without clashes is a plan with any ranks up to 9999, so
 *                that a caller may also write them before the first clash.
 *   trail        n cells. After an accepted edit its front holds the banks that were taken up, in the new order.
 *   moved        n cells. After an accepted edit its front holds the banks whose wave changed, in the new order. After a return to a
 *                kept plan (wave_plan_come_back) it holds them ascending.
 *
 * The cap, a number from 1 to 24 and not below the plan's waves, is the most waves that an edit may lead to. It is 24 after opening, a
 * list and a replay, and then no edit passes it. It is set by wave_plan_set_cap and by the return to a kept plan, and by no edit.
 */
#define WAVE_PLAN_MOST_BANKS 1024
#define WAVE_PLAN_MOST_RANK 9999
#define WAVE_PLAN_MOST_CAP 24
#define WAVE_PLAN_ROW_CELLS 23
#define WAVE_PLAN_COUNT_CELLS 24
#define WAVE_PLAN_UNUSED 65535
#define WAVE_PLAN_TALLY_CELLS 4
#define WAVE_PLAN_MOST_BANKS_BY_RULE 16
#define WAVE_PLAN_MOST_COURIERS 64
#define WAVE_PLAN_MOST_LIMIT 1024

/* The cells of the result slice of each call. */
#define WAVE_PLAN_EDIT_RESULTS 2
#define WAVE_PLAN_WAVE_RESULTS 1
#define WAVE_PLAN_CLASHES_RESULTS 2
#define WAVE_PLAN_BOUND_RESULTS 1
#define WAVE_PLAN_BY_RULE_RESULTS 1
#define WAVE_PLAN_CREW_RESULTS 1
#define WAVE_PLAN_LEAST_CREW_RESULTS 1
#define WAVE_PLAN_LIST_RESULTS 1
#define WAVE_PLAN_SHEET_RESULTS 1
#define WAVE_PLAN_START_RESULTS 1
#define WAVE_PLAN_RECORD_RESULTS 3
#define WAVE_PLAN_REPLAY_RESULTS 2
#define WAVE_PLAN_POSTER_RESULTS 1
#define WAVE_PLAN_COME_BACK_RESULTS 1
#define WAVE_PLAN_CHECK_SHEET_RESULTS 3

/* The most bytes of a list, of a sheet, of a journal, and of a poster. */
#define WAVE_PLAN_MOST_LIST_BYTES 60000
#define WAVE_PLAN_MOST_SHEET_BYTES 4084
#define WAVE_PLAN_MOST_JOURNAL_BYTES 60000
#define WAVE_PLAN_MOST_POSTER_BYTES 8200

/* A journal is a row of fields: a one-byte tag, a two-byte length and the value, low byte first. The first field has the bank count
 * as its value, two bytes. Each other one is an entry of eight bytes: its edit number, four bytes, counted from 1 over all entries; then
 * an edit's two banks in the order given, or a bank and its rank (a K field). Entries of four bytes, without the number, are taken too:
 * the length of a journal's first entry holds for all of it. The calls write entries of eight bytes, but for edits that are recorded in
 * a journal of entries of four. K fields come before the first edit; of several for one bank the last counts. */
#define WAVE_PLAN_FIRST_TAG 0x4E
#define WAVE_PLAN_ADD_TAG 0x2B
#define WAVE_PLAN_STRIKE_TAG 0x2D
#define WAVE_PLAN_RANK_TAG 0x4B
#define WAVE_PLAN_FIRST_BYTES 5
#define WAVE_PLAN_ENTRY_BYTES 11
#define WAVE_PLAN_PLAIN_ENTRY_BYTES 7

/* A shelf keeps up to three plans of n banks, n being the bank count of the present plan. It is one slice of 16-bit cells: three
 * places, in the order of the names below. A place is a used cell, 0 or 1; then the cells of the plan, neighbours, degrees, waves and
 * counts; then of its tally banks, clashes and waves; then its ranks; then its cap. A place whose used cell is 0 may hold anything; a
 * used cell above 1 gets 3.
 * The places are laid out by n: use a shelf for one bank count, and open it again for another, since a keeping of another count can
 * overwrite what is kept.
 * A name is eight bytes, padded with spaces: "MORNING ", "NOON    " or "CLOSE   ". There are no others. */
#define WAVE_PLAN_PLACES 3
#define WAVE_PLAN_PLACE_CELLS(n) (50 * (size_t)(n) + 5)
#define WAVE_PLAN_SHELF_CELLS(n) (WAVE_PLAN_PLACES * WAVE_PLAN_PLACE_CELLS(n))
#define WAVE_PLAN_NAME_BYTES 8

/* What a call returns: 0, or the number of the first question that is answered no. The questions of each call, in their order:
 *   open, open_shelf              1, 2
 *   add                           1, 2, 3, 4, 5, 6, 8, 20
 *   strike                        1, 2, 3, 4, 5, 7, 20
 *   set_cap                       1, 2, 3, 19, 20
 *   wave_of, clashes_of           1, 2, 3, 4
 *   wave_bound                    1, 2, 3
 *   wave_by_rule                  1, 2, 3, 22, 4
 *   crew_steps                    1, 2, 3, 24
 *   least_crew                    1, 2, 3, 24, 25
 *   read_list                     9, 10, 1, 2; then each row in turn: 11 or 23, 18, 4, 5, 6 or 7, 8
 *   write_sheet, write_poster     1, 2, 3, 12
 *   start_journal                 1, 2, 3, 15
 *   add_recorded                  9, 13, 1, 2, 3; each field so far in turn: 14, 21, 18; then 4, 5, 6, 8, 20, 15
 *   strike_recorded               9, 13, 1, 2, 3; each field so far in turn: 14, 21, 18; then 4, 5, 7, 20, 15
 *   replay                        9, 13, 1, 2; then each field in turn: 14, 21, 18, 4, 5, 6 or 7, 8
 *   keep                          1, 2, 3, 16
 *   come_back                     1, 2, 3, 16, 17
 *   check_sheet                   1, 2, 3, 26, 27
 */
#define WAVE_PLAN_ACCEPTED 0
#define WAVE_PLAN_TOO_MANY_BANKS 1      /* Is the bank count at most 1024? */
#define WAVE_PLAN_SHORT_SLICE 2         /* Is each plan, trail, moved, steps and shelf slice that is lent long enough? Tally and result too. */
#define WAVE_PLAN_NO_PLAN 3             /* Does the memory hold a plan, and each used place of a shelf one of as many banks? */
#define WAVE_PLAN_NO_SUCH_BANK 4        /* Is each named bank below the bank count? */
#define WAVE_PLAN_SAME_BANK 5           /* Are the two banks different? */
#define WAVE_PLAN_CLASH_THERE 6         /* (add) Are they free of a clash so far? */
#define WAVE_PLAN_NO_CLASH 7            /* (strike) Do they clash? */
#define WAVE_PLAN_ROW_FULL 8            /* (add) Have both fewer than 23 clashes? */
#define WAVE_PLAN_LONG_LIST 9           /* (list, journal) Has it at most 60000 bytes? */
#define WAVE_PLAN_NO_FIRST_ROW 10       /* (list) Is row 1, or row 2 after "V 2", an N row of the stated form? */
#define WAVE_PLAN_UNREADABLE_ROW 11     /* (list, each further row in turn) Is it one of the four forms? */
#define WAVE_PLAN_SHORT_OUTPUT 12       /* (sheet, poster) Is the output at least as long as it? */
#define WAVE_PLAN_NO_FIRST_FIELD 13     /* (journal) Is it within the slice, and its first field whole and of the stated form? */
#define WAVE_PLAN_WRONG_FIELD 14        /* (journal, each further field in turn) Are tag and length right, and a rank at most 9999? */
#define WAVE_PLAN_NO_SPACE 15           /* (start, record) Is there space in the slice, and in 60000 bytes, for what is to be written? */
#define WAVE_PLAN_UNKNOWN_NAME 16       /* (keep, come back) Is the name one of the three? */
#define WAVE_PLAN_NOTHING_KEPT 17       /* (come back) Is a plan kept under the name? */
#define WAVE_PLAN_LATE_RANK 18          /* (list, journal, each K row or K field in turn) Does it come before the first edit? */
#define WAVE_PLAN_CAP_OUT_OF_SPAN 19    /* (set the cap) Is the cap from 1 to 24? */
#define WAVE_PLAN_CAP_PASSED 20         /* Is the cap not below the waves: (set the cap) those in use, (edit) those that it would need? */
#define WAVE_PLAN_WRONG_NUMBER 21       /* (journal, each entry with a number in turn) Is it one above the last, the first being 1? */
#define WAVE_PLAN_MANY_BANKS_BY_RULE 22 /* (wave by rule) Is the bank count at most 16? */
#define WAVE_PLAN_D_RETIRED 23          /* (list that starts with "V 2", each further row in turn) Is it no D row? */
#define WAVE_PLAN_CREW_SPAN 24          /* (crew steps) Are the couriers from 1 to 64? (least crew) Is the limit at most 1024? */
#define WAVE_PLAN_NO_CREW 25            /* (least crew) Does some crew of 1 to 64 couriers end within the limit? */
#define WAVE_PLAN_NO_SHEET 26           /* (check sheet) Is it a sheet with each of the plan's banks once, no empty wave and the plan's foot? */
#define WAVE_PLAN_SHEET_CLASH 27        /* (check sheet) Are clashing banks in different waves, and the waves no more than the plan's? */

/* Opens a plan of `banks` banks with no clash, all waves and ranks 0, the cap 24. */
uint16_t wave_plan_open(uint16_t *neighbours, size_t neighbours_cells, uint16_t *degrees, size_t degrees_cells,
                        uint16_t *waves, size_t waves_cells, uint16_t *counts, size_t counts_cells,
                        uint16_t *ranks, size_t ranks_cells, uint16_t *tally, size_t tally_cells, uint16_t banks);

/* Adds the clash of banks a and b. result[0]: how many banks moved; result[1]: how many were taken up. */
uint16_t wave_plan_add(uint16_t *neighbours, size_t neighbours_cells, uint16_t *degrees, size_t degrees_cells,
                       uint16_t *waves, size_t waves_cells, uint16_t *counts, size_t counts_cells,
                       const uint16_t *ranks, size_t ranks_cells, uint16_t *trail, size_t trail_cells,
                       uint16_t *moved, size_t moved_cells, uint16_t *tally, size_t tally_cells,
                       uint16_t *result, size_t result_cells, uint16_t a, uint16_t b);

/* Strikes the clash of banks a and b. result as for wave_plan_add. */
uint16_t wave_plan_strike(uint16_t *neighbours, size_t neighbours_cells, uint16_t *degrees, size_t degrees_cells,
                          uint16_t *waves, size_t waves_cells, uint16_t *counts, size_t counts_cells,
                          const uint16_t *ranks, size_t ranks_cells, uint16_t *trail, size_t trail_cells,
                          uint16_t *moved, size_t moved_cells, uint16_t *tally, size_t tally_cells,
                          uint16_t *result, size_t result_cells, uint16_t a, uint16_t b);

/* Sets the cap: from now on an edit, add or strike, after which the plan would need more waves than that gets 20. Only the tally's
 * cap changes. */
uint16_t wave_plan_set_cap(const uint16_t *neighbours, size_t neighbours_cells, const uint16_t *degrees, size_t degrees_cells,
                           const uint16_t *waves, size_t waves_cells, const uint16_t *counts, size_t counts_cells,
                           const uint16_t *ranks, size_t ranks_cells, uint16_t *tally, size_t tally_cells, uint16_t cap);

/* The wave of bank b. result[0]: the wave. */
uint16_t wave_plan_wave_of(const uint16_t *neighbours, size_t neighbours_cells, const uint16_t *degrees, size_t degrees_cells,
                           const uint16_t *waves, size_t waves_cells, const uint16_t *counts, size_t counts_cells,
                           const uint16_t *ranks, size_t ranks_cells, const uint16_t *tally, size_t tally_cells,
                           uint16_t *result, size_t result_cells, uint16_t b);

/* The banks that clash with bank b: a part of `neighbours`. result[0]: the cell where it starts; result[1]: its number of cells. */
uint16_t wave_plan_clashes_of(const uint16_t *neighbours, size_t neighbours_cells, const uint16_t *degrees, size_t degrees_cells,
                              const uint16_t *waves, size_t waves_cells, const uint16_t *counts, size_t counts_cells,
                              const uint16_t *ranks, size_t ranks_cells, const uint16_t *tally, size_t tally_cells,
                              uint16_t *result, size_t result_cells, uint16_t b);

/* How many waves the plan has at most, from its degrees alone. result[0]: the largest over i, from 1, of the smaller of i and one plus
 * the i-th largest degree, at most 24; 0 for a plan without banks. */
uint16_t wave_plan_wave_bound(const uint16_t *neighbours, size_t neighbours_cells, const uint16_t *degrees, size_t degrees_cells,
                              const uint16_t *waves, size_t waves_cells, const uint16_t *counts, size_t counts_cells,
                              const uint16_t *ranks, size_t ranks_cells, const uint16_t *tally, size_t tally_cells,
                              uint16_t *result, size_t result_cells);

/* The wave of bank b in a plan of at most 16 banks, read straight off the rule: the wave of each earlier neighbour is looked up, which is
 * found in the same manner, and the lowest one free is taken. The search reads neighbours, degrees and ranks alone; waves and counts serve
 * only to tell that the memory holds a plan (3). result[0]: the wave, which is that of wave_plan_wave_of. */
uint16_t wave_plan_wave_by_rule(const uint16_t *neighbours, size_t neighbours_cells, const uint16_t *degrees, size_t degrees_cells,
                                const uint16_t *waves, size_t waves_cells, const uint16_t *counts, size_t counts_cells,
                                const uint16_t *ranks, size_t ranks_cells, const uint16_t *tally, size_t tally_cells,
                                uint16_t *result, size_t result_cells, uint16_t b);

/* The day as so many couriers serve it: each step serves that many of the lowest waiting banks of the present wave, or all if fewer, and
 * the next wave starts in the step after.
 *   steps        n cells. The step of b, from 1.
 * result[0]: how many steps there are, 0 for a plan without banks; it is the sum over the waves of their sizes divided by the couriers,
 * each rounded up. */
uint16_t wave_plan_crew_steps(const uint16_t *neighbours, size_t neighbours_cells, const uint16_t *degrees, size_t degrees_cells,
                              const uint16_t *waves, size_t waves_cells, const uint16_t *counts, size_t counts_cells,
                              const uint16_t *ranks, size_t ranks_cells, const uint16_t *tally, size_t tally_cells,
                              uint16_t *steps, size_t steps_cells, uint16_t *result, size_t result_cells, uint16_t couriers);

/* The least crew that ends within so many steps. result[0]: its couriers, from 1 to 64; 1 for a plan without banks. */
uint16_t wave_plan_least_crew(const uint16_t *neighbours, size_t neighbours_cells, const uint16_t *degrees, size_t degrees_cells,
                              const uint16_t *waves, size_t waves_cells, const uint16_t *counts, size_t counts_cells,
                              const uint16_t *ranks, size_t ranks_cells, const uint16_t *tally, size_t tally_cells,
                              uint16_t *result, size_t result_cells, uint16_t limit);

/* Reads a list: opens the plan of its N row, then sets the ranks and makes the edits of the others. A list may start with the row
 * "V 2"; its N row is then row 2, and it has no D rows. result[0]: the row that was refused, counted from 1; 0 if the list was
 * accepted or is too long (9). Where a row after the N row is refused, the plan, tally, trail and moved are those of the rows before
 * it. */
uint16_t wave_plan_read_list(const uint8_t *list, size_t list_bytes, uint16_t *neighbours, size_t neighbours_cells,
                             uint16_t *degrees, size_t degrees_cells, uint16_t *waves, size_t waves_cells,
                             uint16_t *counts, size_t counts_cells, uint16_t *ranks, size_t ranks_cells,
                             uint16_t *trail, size_t trail_cells, uint16_t *moved, size_t moved_cells,
                             uint16_t *tally, size_t tally_cells, uint16_t *result, size_t result_cells);

/* Writes the sheet of the plan to the front of `out`. result[0]: its number of bytes. */
uint16_t wave_plan_write_sheet(const uint16_t *neighbours, size_t neighbours_cells, const uint16_t *degrees, size_t degrees_cells,
                               const uint16_t *waves, size_t waves_cells, const uint16_t *counts, size_t counts_cells,
                               const uint16_t *ranks, size_t ranks_cells, const uint16_t *tally, size_t tally_cells,
                               uint8_t *out, size_t out_bytes, uint16_t *result, size_t result_cells);

/* Starts a journal at the front of the slice: its first field, then the ranks other than 0, lowest bank first, then the clashes of
 * the plan as adds, smaller bank first, lowest pair first. Bytes beyond it stay. result[0]: its length. */
uint16_t wave_plan_start_journal(const uint16_t *neighbours, size_t neighbours_cells, const uint16_t *degrees, size_t degrees_cells,
                                 const uint16_t *waves, size_t waves_cells, const uint16_t *counts, size_t counts_cells,
                                 const uint16_t *ranks, size_t ranks_cells, const uint16_t *tally, size_t tally_cells,
                                 uint8_t *journal, size_t journal_bytes, uint16_t *result, size_t result_cells);

/* Adds the clash of banks a and b and writes it after the last field of the journal, which is the first `length` bytes of the slice.
 * result[0]: how many banks moved; result[1]: how many were taken up; result[2]: the new length. A journal that ends inside a field
 * gets 14. */
uint16_t wave_plan_add_recorded(uint16_t *neighbours, size_t neighbours_cells, uint16_t *degrees, size_t degrees_cells,
                                uint16_t *waves, size_t waves_cells, uint16_t *counts, size_t counts_cells,
                                const uint16_t *ranks, size_t ranks_cells, uint16_t *trail, size_t trail_cells,
                                uint16_t *moved, size_t moved_cells, uint16_t *tally, size_t tally_cells,
                                uint8_t *journal, size_t journal_bytes, uint16_t *result, size_t result_cells,
                                uint16_t a, uint16_t b, size_t length);

/* Strikes the clash of banks a and b and writes it after the last field. Otherwise as wave_plan_add_recorded. */
uint16_t wave_plan_strike_recorded(uint16_t *neighbours, size_t neighbours_cells, uint16_t *degrees, size_t degrees_cells,
                                   uint16_t *waves, size_t waves_cells, uint16_t *counts, size_t counts_cells,
                                   const uint16_t *ranks, size_t ranks_cells, uint16_t *trail, size_t trail_cells,
                                   uint16_t *moved, size_t moved_cells, uint16_t *tally, size_t tally_cells,
                                   uint8_t *journal, size_t journal_bytes, uint16_t *result, size_t result_cells,
                                   uint16_t a, uint16_t b, size_t length);

/* Replays a journal: opens the plan of its first field, then sets the ranks and makes the edits of the others. result[0]: the field
 * that was refused, counted from 1; 0 if the journal was accepted or is too long (9). result[1]: how many bytes at its end were left
 * over, fewer than a whole field; 0 if it was refused. Where a later field is refused, the plan, tally, trail and moved are those of
 * the fields before it. */
uint16_t wave_plan_replay(const uint8_t *journal, size_t journal_bytes, uint16_t *neighbours, size_t neighbours_cells,
                          uint16_t *degrees, size_t degrees_cells, uint16_t *waves, size_t waves_cells,
                          uint16_t *counts, size_t counts_cells, uint16_t *ranks, size_t ranks_cells,
                          uint16_t *trail, size_t trail_cells, uint16_t *moved, size_t moved_cells,
                          uint16_t *tally, size_t tally_cells, uint16_t *result, size_t result_cells);

/* Writes the gate poster of the plan to the front of `out`: pages of 50 lines of 40 characters and a line feed. result[0]: its
 * number of bytes, 2050 for each page; a plan without banks has one. */
uint16_t wave_plan_write_poster(const uint16_t *neighbours, size_t neighbours_cells, const uint16_t *degrees, size_t degrees_cells,
                                const uint16_t *waves, size_t waves_cells, const uint16_t *counts, size_t counts_cells,
                                const uint16_t *ranks, size_t ranks_cells, const uint16_t *tally, size_t tally_cells,
                                uint8_t *out, size_t out_bytes, uint16_t *result, size_t result_cells);

/* Opens a shelf for plans of `banks` banks: the three used cells become 0, and no other cell changes. Whatever was kept is gone. */
uint16_t wave_plan_open_shelf(uint16_t *shelf, size_t shelf_cells, uint16_t banks);

/* Keeps the plan and its tally under a name, in the place of what was kept there before. The other two places stay. */
uint16_t wave_plan_keep(const uint16_t *neighbours, size_t neighbours_cells, const uint16_t *degrees, size_t degrees_cells,
                        const uint16_t *waves, size_t waves_cells, const uint16_t *counts, size_t counts_cells,
                        const uint16_t *ranks, size_t ranks_cells, const uint16_t *tally, size_t tally_cells,
                        uint16_t *shelf, size_t shelf_cells, const uint8_t *name, size_t name_bytes);

/* Comes back to the plan that is kept under a name: plan memory and tally become what its place holds. The front of `moved` gets the
 * banks whose wave differs, ascending. The shelf stays. A journal of the plan left ends here; start a new one. result[0]: how many
 * banks moved. */
uint16_t wave_plan_come_back(uint16_t *neighbours, size_t neighbours_cells, uint16_t *degrees, size_t degrees_cells,
                             uint16_t *waves, size_t waves_cells, uint16_t *counts, size_t counts_cells,
                             uint16_t *ranks, size_t ranks_cells, uint16_t *moved, size_t moved_cells,
                             uint16_t *tally, size_t tally_cells, const uint16_t *shelf, size_t shelf_cells,
                             const uint8_t *name, size_t name_bytes, uint16_t *result, size_t result_cells);

/* Checks a sheet from anybody: accepted if it is exactly the text, in the form of wave_plan_write_sheet, of some waves of this plan's
 * banks with this plan's foot, and these waves keep clashing banks apart and are no more than the plan's. The sheet that
 * wave_plan_write_sheet writes of the same plan is always accepted. Of a sheet so accepted nothing else is said: its waves need not be
 * the rule's. The bytes may have any length and content. result[0]: where the bytes are no such sheet (26), the first line at fault,
 * counted from 1, which is the foot's where the lines of all waves can stand there. result[1], result[2]: where two banks that clash
 * stand in one wave (27), the pair with the lowest first bank, then the lowest second; both 0 where there are too many waves and no
 * such pair. All others are 0. */
uint16_t wave_plan_check_sheet(const uint16_t *neighbours, size_t neighbours_cells, const uint16_t *degrees, size_t degrees_cells,
                               const uint16_t *waves, size_t waves_cells, const uint16_t *counts, size_t counts_cells,
                               const uint16_t *ranks, size_t ranks_cells, const uint16_t *tally, size_t tally_cells,
                               uint16_t *result, size_t result_cells, const uint8_t *sheet, size_t sheet_bytes);

#ifdef __cplusplus
}
#endif

#endif
