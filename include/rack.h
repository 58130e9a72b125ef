/* rack.h: the plan library as a rack's C host sees it.
 *
 * Link with librack.a. The library keeps nothing between calls, allocates nothing and calls
 * nothing: every list belongs to the caller, is lent for one call, and may have any alignment.
 * Lists lent to one call must not overlap. A pointer may be null where its length is 0. Two
 * threads may call at the same time on different lists; one state is for one thread at a time.
 *
 * A table and a state are byte lists of fixed length and layout (docs/LAYOUTS.md). Every number
 * in them is an unsigned 64-bit word of 8 bytes, least byte first; word i stands at byte 8 * i.
 *
 *   table, 482 words                         state, 513 words
 *     0          processors                    0              clock
 *     1          tasks                         1 + 4 * r      instances released of row r + 1
 *     2 + 3 * i  period of task i + 1          1 + 4 * r + 1  instances completed
 *     3 + 3 * i  deadline, 0 for the period    1 + 4 * r + 2  ticks used by the open instance
 *     4 + 3 * i  steps                         1 + 4 * r + 3  guard
 *     98 + 3 * r processor of row r + 1
 *     99 + 3 * r priority
 *    100 + 3 * r time
 *
 * Rows are the steps of all tasks in order: the first task's steps, then the second's, and so on.
 * A row is open while it has released more instances than it has completed. What stands in a list
 * past the plan's tasks and rows is read by nobody and stays as it is.
 *
 * A usual host:
 *
 *   uint8_t table[RACK_TABLE_BYTES], state[RACK_STATE_BYTES], released[RACK_ROWS];
 *   uint8_t done[RACK_PROCESSORS];
 *   rack_answer a = rack_table(file, file_len, table, sizeof table);      a.value: rows
 *   a = rack_fresh(table, sizeof table, state, sizeof state);
 *   for each tick of the rack:
 *       for each task k that has come since the last tick:
 *           a = rack_arrive(table, sizeof table, state, sizeof state, k); a.value: row to start
 *       fill done, one byte for each processor of the plan;
 *       a = rack_tick(table, sizeof table, state, sizeof state,
 *                     done, processors, released, rows);                  a.value: new clock
 *       start an instance of every row r + 1 with released[r] == 1
 *
 * host/rack_host.c is such a host.
 */
#ifndef RACK_H
#define RACK_H

#include <stddef.h>
#include <stdint.h>

#ifdef __cplusplus
extern "C" {
#endif

#define RACK_TABLE_BYTES 3856
#define RACK_STATE_BYTES 4104
#define RACK_PROCESSORS 16
#define RACK_TASKS 32
#define RACK_ROWS 128
#define RACK_FILE_BYTES 8192    /* a longer plan file is refused */
#define RACK_REPORT_BYTES 9604  /* no report is longer */
#define RACK_LAST_CLOCK UINT64_C(1000000000000)

/* What every call answers. number 0: the call was taken, and value is its answer. Any other
 * number is a refusal, and value is its place; then no list has changed in any byte.
 *
 *    1  file over 8,192 bytes                                        place 0
 *    2  a line isn't of the form and key due, the file ends early,
 *       or bytes follow the last line                                the line due
 *    3  value outside its range                                      the line
 *    4  this steps line brings the rows above 128                    the line
 *    5  table list isn't a plan, or has another length               place 0
 *    6  no busy length up to 10,000,000                              the lowest such row
 *    7  output or list too short                                     the number needed
 *    8  no such task                                                 the number given
 *    9  arrival too soon                                             the first clock allowed
 *   10  done list isn't one byte a processor                         processors
 *   11  done byte above 1, or 1 where nothing runs                   the lowest such processor
 *   12  running instance has used all but one tick of its time,
 *       and done is 0                                                the lowest such processor
 *   13  clock at its end                                             1,000,000,000,000
 *   14  state doesn't fit the plan, or has another length            place 0
 */
typedef struct rack_answer {
    uint64_t number, value;
} rack_answer;

/* Reads a plan file into a table list. Answers the number of rows.
 *
 * table needs RACK_TABLE_BYTES; a shorter list gives 7 with place 3856, before anything in the
 * file is judged. Only the words of the plan's counts, tasks and rows are written, so the rest of
 * the list, and of a longer one, stays. Then 1, and line by line 2, 3 and 4. A table list for the
 * other calls has exactly RACK_TABLE_BYTES.
 */
rack_answer rack_table(const uint8_t *file, size_t file_len, uint8_t *table, size_t table_len);

/* Starts the guards: the clock and the plan's rows become 0. Answers 0.
 *
 * What the state list held before doesn't matter. Refusals, in this order: 5, and 14 for a state
 * list of another length than RACK_STATE_BYTES.
 */
rack_answer rack_fresh(const uint8_t *table, size_t table_len, uint8_t *state, size_t state_len);

/* An instance of a task arrives, now. Answers the number of the row that it releases, which is
 * the first of the task's chain; the host may start that step at once.
 *
 * Arrivals of one task must be a period apart: an earlier one is refused with 9 and the first
 * clock at which it would be taken, and the host keeps it until then. Refusals, in this order: 5,
 * 14, 8, 9.
 */
rack_answer rack_arrive(const uint8_t *table, size_t table_len, uint8_t *state, size_t state_len,
                        uint64_t task);

/* One tick of all processors. Answers the new clock.
 *
 * done has one byte for each processor of the plan, in order: 1 if the instance that runs there
 * ends with this tick, else 0. What runs on a processor is its open row of greatest priority, the
 * lowest row number among equals. An instance uses at least one tick and at most its time, so at
 * the last tick of its time done must be 1 (else 12), and done is 0 where nothing runs (else 11).
 *
 * released needs one byte for each row of the plan. Each becomes 1 if this tick released an
 * instance of that row, which the host may start from now on, or else 0; bytes past the rows
 * stay. First rows are released by rack_arrive alone, so theirs are always 0.
 *
 * Refusals, in this order: 5, 14, 10, 7, 13, 11, 12.
 */
rack_answer rack_tick(const uint8_t *table, size_t table_len, uint8_t *state, size_t state_len,
                      const uint8_t *done, size_t done_len, uint8_t *released, size_t released_len);

/* Reads a plan file and writes its report, lines of key=value, into out. Answers their number of
 * bytes; no byte 0 is put behind them, and what out holds past them stays.
 *
 * RACK_REPORT_BYTES are always enough; where out is too short, 7 gives the bytes needed. Refusals,
 * in this order: 1, then line by line 2, 3 and 4; then 6, then 7.
 */
rack_answer plan_report(const uint8_t *file, size_t file_len, uint8_t *out, size_t out_len);

#ifdef __cplusplus
}
#endif

#endif
