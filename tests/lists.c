/* Every call of the archive on lists that are heap blocks of exactly their length, so that valgrind sees a byte read or
 * written past a list, and a test of a byte that was never written. Every second list stands at an odd address; a list of
 * no bytes is a null pointer. Every answer is compared, and that a refusal changes nothing.
 *
 * It prints how many calls there were and how often each number came, and ends with 1 at the first difference.
 */
#include "rack.h"

#include <inttypes.h>
#include <stdarg.h>
#include <stdio.h>
#include <stdlib.h>
#include <string.h>

static uint64_t calls, seen[15];

static void fail(const char *format, ...)
{
    va_list list;
    va_start(list, format);
    vfprintf(stderr, format, list);
    va_end(list);
    fputc('\n', stderr);
    exit(1);
}

/* A list that is lent: its bytes, and a copy of what they were at the last call. */
typedef struct {
    uint8_t *block, *bytes, *copy;
    size_t length;
} lent;

/* A list of so many bytes, none of them written. It ends where its block ends. */
static lent blank(size_t length)
{
    static size_t turn;
    size_t before = turn++ % 2;
    lent list = {NULL, NULL, NULL, length};
    if (length == 0)
        return list;
    list.block = malloc(before + length);
    list.copy = malloc(length);
    if (!list.block || !list.copy)
        fail("no room for a list of %zu bytes", length);
    list.bytes = list.block + before;
    return list;
}

/* A list of these bytes. */
static lent lend(const void *bytes, size_t length)
{
    lent list = blank(length);
    if (length > 0) {
        memcpy(list.bytes, bytes, length);
        memcpy(list.copy, bytes, length);
    }
    return list;
}

/* A list of so many bytes of one value. */
static lent filled(uint8_t byte, size_t length)
{
    lent list = blank(length);
    if (length > 0) {
        memset(list.bytes, byte, length);
        memset(list.copy, byte, length);
    }
    return list;
}

static void give_back(lent list)
{
    free(list.block);
    free(list.copy);
}

/* The list is as it was at the last call. */
static void stayed(const char *call, const lent *list)
{
    if (list->length > 0 && memcmp(list->bytes, list->copy, list->length) != 0)
        fail("%s: a list changed that must stay", call);
}

/* After a call that may write the list: a refusal has changed nothing. */
static void settle(const char *call, rack_answer answer, lent *list)
{
    if (answer.number != 0)
        stayed(call, list);
    else if (list->length > 0)
        memcpy(list->copy, list->bytes, list->length);
}

static void expect(const char *call, rack_answer answer, uint64_t number, uint64_t value)
{
    calls++;
    if (answer.number != number || answer.value != value)
        fail("%s: number %" PRIu64 " value %" PRIu64 ", and not %" PRIu64 " and %" PRIu64, call, answer.number,
             answer.value, number, value);
    seen[number]++;
}

static uint64_t word(const lent *list, size_t i)
{
    uint64_t value = 0;
    for (int byte = 7; byte >= 0; byte--)
        value = value << 8 | list->bytes[8 * i + (size_t)byte];
    return value;
}

static void put_word(lent *list, size_t i, uint64_t value)
{
    for (size_t byte = 0; byte < 8; byte++)
        list->bytes[8 * i + byte] = list->copy[8 * i + byte] = (uint8_t)(value >> 8 * byte);
}

/* The five calls, each with its answer compared and what must stay. */

static void table(const lent *file, lent *list, uint64_t number, uint64_t value)
{
    rack_answer answer = rack_table(file->bytes, file->length, list->bytes, list->length);
    expect("rack_table", answer, number, value);
    stayed("rack_table", file);
    settle("rack_table", answer, list);
}

static void report(const lent *file, lent *out, uint64_t number, uint64_t value)
{
    rack_answer answer = plan_report(file->bytes, file->length, out->bytes, out->length);
    expect("plan_report", answer, number, value);
    stayed("plan_report", file);
    settle("plan_report", answer, out);
}

static void fresh(const lent *plan, lent *state, uint64_t number, uint64_t value)
{
    rack_answer answer = rack_fresh(plan->bytes, plan->length, state->bytes, state->length);
    expect("rack_fresh", answer, number, value);
    stayed("rack_fresh", plan);
    settle("rack_fresh", answer, state);
}

static void arrive(const lent *plan, lent *state, uint64_t task, uint64_t number, uint64_t value)
{
    rack_answer answer = rack_arrive(plan->bytes, plan->length, state->bytes, state->length, task);
    expect("rack_arrive", answer, number, value);
    stayed("rack_arrive", plan);
    settle("rack_arrive", answer, state);
}

static void tick(const lent *plan, lent *state, const lent *done, lent *released, uint64_t number, uint64_t value)
{
    rack_answer answer = rack_tick(plan->bytes, plan->length, state->bytes, state->length, done->bytes, done->length,
                                   released->bytes, released->length);
    expect("rack_tick", answer, number, value);
    stayed("rack_tick", plan);
    stayed("rack_tick", done);
    settle("rack_tick", answer, state);
    settle("rack_tick", answer, released);
}

/* A tick with these done bytes and room for so many rows. */
static void tick_with(const lent *plan, lent *state, const char *bytes, size_t count, size_t rows, uint64_t number,
                      uint64_t value)
{
    lent done = lend(bytes, count), released = filled(7, rows);
    tick(plan, state, &done, &released, number, value);
    give_back(done);
    give_back(released);
}

/* The plans. */

#define HEAD "plan=1\nprocessors=2\ntasks=3\ntask=1\n"
#define TAIL                                                                                                        \
    "deadline=0\nsteps=1\nprocessor=1\npriority=2\ntime=2\ntask=2\nperiod=6\ndeadline=0\nsteps=2\nprocessor=1\n"     \
    "priority=1\ntime=2\nprocessor=2\npriority=2\ntime=2\ntask=3\nperiod=6\ndeadline=0\nsteps=1\nprocessor=2\n"      \
    "priority=1\ntime=3\n"

/* The plan that the scope document prints: 27 lines, 4 rows. Its report has 296 bytes. */
static const char paper[] = HEAD "period=4\n" TAIL;

/* Two rows that ask for more than their processor has. */
static const char too_full[] = "plan=1\nprocessors=1\ntasks=2\ntask=1\nperiod=10\ndeadline=0\nsteps=1\nprocessor=1\n"
                               "priority=2\ntime=6\ntask=2\nperiod=20\ndeadline=0\nsteps=1\nprocessor=1\n"
                               "priority=1\ntime=9\n";

/* A plan of 16 processors and so many tasks of four rows each; 32 tasks have 128 rows, as many as there may be. */
static size_t wide(char *text, size_t room, int tasks)
{
    size_t end = (size_t)snprintf(text, room, "plan=1\nprocessors=16\ntasks=%d\n", tasks);
    for (int row = 0; row < 4 * tasks; row++) {
        if (row % 4 == 0)
            end += (size_t)snprintf(text + end, room - end, "task=%d\nperiod=%d\ndeadline=160000000\nsteps=4\n",
                                    row / 4 + 1, row == 0 ? 1000000 : 100);
        end += (size_t)snprintf(text + end, room - end, "processor=%d\npriority=%d\ntime=5\n", row % 16 + 1,
                                255 - row % 3);
    }
    return end;
}

/* Files: what each gives as a table and as a report. */

static void file_gives(const char *text, size_t length, uint64_t number, uint64_t value)
{
    lent file = lend(text, length), list = filled(7, RACK_TABLE_BYTES), out = filled(7, RACK_REPORT_BYTES);
    table(&file, &list, number, value);
    report(&file, &out, number, value);
    give_back(file);
    give_back(list);
    give_back(out);
}

static void files(void)
{
    static char text[RACK_FILE_BYTES + 1];
    static const char low[] = HEAD "period=0\n" TAIL, zero[] = HEAD "period=04\n" TAIL;
    file_gives(NULL, 0, 2, 1);
    file_gives(zero, sizeof zero - 1, 2, 5);
    file_gives(low, sizeof low - 1, 3, 5);
    memset(text, 'x', sizeof text);
    memcpy(text, paper, sizeof paper - 1);
    file_gives(text, RACK_FILE_BYTES, 2, 28);
    file_gives(text, RACK_FILE_BYTES + 1, 1, 0);
    /* 32 tasks of four rows each are all there may be: with 5 in the place of the last 4 there is one too many. */
    size_t end = wide(text, sizeof text, 32);
    char *last = NULL;
    for (char *at = text; (at = strstr(at, "steps=4\n")); at++)
        last = at;
    last[6] = '5';
    file_gives(text, end, 4, 3 + 31 * 16 + 4);
}

/* The line due where the file is cut behind so many bytes. */
static uint64_t line_at(size_t length)
{
    uint64_t line = 1;
    for (size_t i = 0; i < length; i++)
        line += paper[i] == '\n';
    return line;
}

/* Every front of the plan ends early, at the line that its last byte stands on. */
static void fronts(void)
{
    for (size_t length = 0; length < sizeof paper - 1; length++)
        file_gives(paper, length, 2, line_at(length));
}

/* Every byte of the plan changed into some others: whatever comes of it, a refusal changes nothing. */
static void changed_bytes(void)
{
    static const char others[] = {'0', '9', '=', '\n', 's', '\0', '\xff'};
    for (size_t at = 0; at < sizeof paper - 1; at++)
        for (size_t other = 0; other < sizeof others; other++) {
            lent file = lend(paper, sizeof paper - 1), list = filled(7, RACK_TABLE_BYTES);
            file.bytes[at] = file.copy[at] = (uint8_t)others[other];
            rack_answer answer = rack_table(file.bytes, file.length, list.bytes, list.length);
            calls++;
            seen[answer.number]++;
            stayed("rack_table", &file);
            settle("rack_table", answer, &list);
            give_back(file);
            give_back(list);
        }
}

/* Lists and outputs that are too short, exactly long enough and longer. */
static void rooms(void)
{
    static const size_t rooms[] = {0, 1, 3848, 3855, 3856, 3857, 4864};
    lent file = lend(paper, sizeof paper - 1), full = lend(too_full, sizeof too_full - 1);
    for (size_t i = 0; i < sizeof rooms / sizeof rooms[0]; i++) {
        lent list = filled(7, rooms[i]);
        table(&file, &list, rooms[i] < 3856 ? 7 : 0, rooms[i] < 3856 ? 3856 : 4);
        give_back(list);
    }
    for (size_t room = 0; room < 300; room++) {
        lent out = filled(7, room);
        report(&file, &out, room < 296 ? 7 : 0, 296);
        give_back(out);
    }
    lent list = filled(7, RACK_TABLE_BYTES), none = filled(7, 0);
    table(&full, &list, 0, 2);
    report(&full, &none, 6, 2);
    give_back(list);
    give_back(file);
    give_back(full);
}

/* The table list of a plan, with the words past the plan never written. */
static lent table_of(const char *text, size_t length, uint64_t rows)
{
    lent file = lend(text, length), list = blank(RACK_TABLE_BYTES);
    rack_answer answer = rack_table(file.bytes, file.length, list.bytes, list.length);
    expect("rack_table", answer, 0, rows);
    memcpy(list.copy, list.bytes, list.length);
    give_back(file);
    return list;
}

/* The same with zeros past the plan, so that it can be compared. */
static lent clear_table_of(const char *text, size_t length, uint64_t rows)
{
    lent file = lend(text, length), list = filled(0, RACK_TABLE_BYTES);
    table(&file, &list, 0, rows);
    give_back(file);
    return list;
}

/* Lists that were never cleared: nothing is decided by a byte that nobody wrote. */
static void unwritten(void)
{
    lent plan = table_of(paper, sizeof paper - 1, 4), state = blank(RACK_STATE_BYTES), released = blank(4);
    expect("rack_fresh", rack_fresh(plan.bytes, plan.length, state.bytes, state.length), 0, 0);
    for (size_t i = 0; i <= 4 * 4; i++)
        if (word(&state, i) != 0)
            fail("rack_fresh: word %zu is not 0", i);
    expect("rack_arrive", rack_arrive(plan.bytes, plan.length, state.bytes, state.length, 1), 0, 1);
    uint8_t done[2] = {0, 0};
    for (uint64_t clock = 1; clock <= 2; clock++) {
        done[0] = clock == 2;
        expect("rack_tick",
               rack_tick(plan.bytes, plan.length, state.bytes, state.length, done, 2, released.bytes, 4), 0, clock);
        if (memcmp(released.bytes, "\0\0\0\0", 4) != 0)
            fail("rack_tick: no row was due");
    }
    if (word(&state, 0) != 2 || word(&state, 1) != 1 || word(&state, 2) != 1)
        fail("rack_tick: row 1 has not completed");
    give_back(plan);
    give_back(state);
    give_back(released);
}

/* The refusals of fresh, arrive and tick on the printed plan, each from a state in which nothing else is wrong. */
static void refusals(void)
{
    lent plan = clear_table_of(paper, sizeof paper - 1, 4), state = filled(7, RACK_STATE_BYTES);
    fresh(&plan, &state, 0, 0);
    arrive(&plan, &state, 0, 8, 0);
    arrive(&plan, &state, 4, 8, 4);
    arrive(&plan, &state, UINT64_MAX, 8, UINT64_MAX);
    arrive(&plan, &state, 1, 0, 1);
    arrive(&plan, &state, 1, 9, 4);
    tick_with(&plan, &state, "", 0, 4, 10, 2);
    tick_with(&plan, &state, "\0", 1, 4, 10, 2);
    tick_with(&plan, &state, "\0\0\0", 3, 4, 10, 2);
    for (size_t rows = 0; rows < 4; rows++)
        tick_with(&plan, &state, "\0\0", 2, rows, 7, 4);
    tick_with(&plan, &state, "\0\1", 2, 4, 11, 2);
    tick_with(&plan, &state, "\2\1", 2, 4, 11, 1);
    tick_with(&plan, &state, "\0\0", 2, 4, 0, 1);
    tick_with(&plan, &state, "\0\0", 2, 4, 12, 1);
    tick_with(&plan, &state, "\0\377", 2, 4, 11, 2);
    tick_with(&plan, &state, "\1\0", 2, 9, 0, 2);
    fresh(&plan, &state, 0, 0);
    put_word(&state, 0, RACK_LAST_CLOCK - 1);
    tick_with(&plan, &state, "\0\0", 2, 4, 0, RACK_LAST_CLOCK);
    tick_with(&plan, &state, "\0\0", 2, 4, 13, RACK_LAST_CLOCK);
    arrive(&plan, &state, 3, 0, 4);
    put_word(&state, 0, RACK_LAST_CLOCK + 1);
    tick_with(&plan, &state, "\0\0", 2, 4, 14, 0);
    give_back(plan);
    give_back(state);
}

/* All three calls on a table and a state of which one is wrong. */
static void all_refuse(const lent *plan, lent *state, uint64_t number)
{
    if (number == 5 || state->length != RACK_STATE_BYTES)
        fresh(plan, state, number, 0);
    arrive(plan, state, 1, number, 0);
    tick_with(plan, state, "\0\0", 2, 4, number, 0);
}

/* Tables and states of another length; where both are wrong, the table comes first. */
static void lengths(void)
{
    static const size_t tables[] = {0, 1, 8, 3848, 3855, 3857, 3864}, states[] = {0, 1, 8, 4096, 4103, 4105, 4112};
    lent plan = clear_table_of(paper, sizeof paper - 1, 4), state = filled(0, RACK_STATE_BYTES);
    lent none = filled(0, 0), zeros = filled(0, RACK_TABLE_BYTES);
    for (size_t i = 0; i < sizeof tables / sizeof tables[0]; i++) {
        lent other = filled(0, tables[i]), wrong = filled(0, states[i]);
        for (size_t at = 0; at < other.length && at < plan.length; at++)
            other.bytes[at] = other.copy[at] = plan.bytes[at];
        all_refuse(&other, &state, 5);
        all_refuse(&other, &wrong, 5);
        all_refuse(&zeros, &wrong, 5);
        all_refuse(&plan, &wrong, 14);
        give_back(other);
        give_back(wrong);
    }
    all_refuse(&none, &none, 5);
    all_refuse(&plan, &none, 14);
    give_back(plan);
    give_back(state);
    give_back(zeros);
}

/* A word of the table above its range, or 0: no plan, but for a deadline of 0 and words that the plan doesn't have. */
static void table_words(void)
{
    lent plan = clear_table_of(paper, sizeof paper - 1, 4), state = filled(0, RACK_STATE_BYTES);
    for (size_t i = 0; i < RACK_TABLE_BYTES / 8; i++) {
        uint64_t old = word(&plan, i);
        int has = i < 2 + 3 * 3 || (i >= 98 && i < 98 + 3 * 4), deadline = i >= 2 && i < 98 && i % 3 == 0;
        put_word(&plan, i, UINT64_MAX);
        if (has)
            all_refuse(&plan, &state, 5);
        else
            fresh(&plan, &state, 0, 0);
        put_word(&plan, i, 0);
        if (has && !deadline)
            all_refuse(&plan, &state, 5);
        else
            fresh(&plan, &state, 0, 0);
        put_word(&plan, i, old);
    }
    give_back(plan);
    give_back(state);
}

/* A word of the state above everything: it doesn't fit, but for words that the plan doesn't have. */
static void state_words(void)
{
    lent plan = clear_table_of(paper, sizeof paper - 1, 4), state = filled(0, RACK_STATE_BYTES);
    for (size_t i = 0; i < RACK_STATE_BYTES / 8; i++) {
        fresh(&plan, &state, 0, 0);
        put_word(&state, i, UINT64_MAX);
        if (i <= 4 * 4)
            all_refuse(&plan, &state, 14);
        else
            arrive(&plan, &state, 1, 0, 1);
    }
    give_back(plan);
    give_back(state);
}

/* Whether the processor has an open row, of the widest plan. */
static int open_on(const lent *plan, const lent *state, uint64_t processor)
{
    for (size_t row = 0; row < RACK_ROWS; row++)
        if (word(plan, 98 + 3 * row) == processor && word(state, 2 + 4 * row) < word(state, 1 + 4 * row))
            return 1;
    return 0;
}

/* The widest plan: its report, and a run in which all that runs ends at every third tick. */
static void widest(void)
{
    static char text[RACK_FILE_BYTES];
    size_t length = wide(text, sizeof text, RACK_TASKS);
    lent file = lend(text, length), out = filled(7, RACK_REPORT_BYTES);
    rack_answer answer = plan_report(file.bytes, file.length, out.bytes, out.length);
    lent exact = filled(7, answer.value), shorter = filled(7, answer.value - 1);
    report(&file, &exact, 0, answer.value);
    report(&file, &shorter, 7, answer.value);
    lent plan = clear_table_of(text, length, RACK_ROWS), state = filled(7, RACK_STATE_BYTES);
    lent released = filled(7, RACK_ROWS), few = filled(7, RACK_ROWS - 1), done = filled(0, RACK_PROCESSORS);
    uint64_t steps = 0;
    fresh(&plan, &state, 0, 0);
    for (uint64_t task = 1; task <= RACK_TASKS; task++)
        arrive(&plan, &state, task, 0, 4 * (task - 1) + 1);
    tick(&plan, &state, &done, &few, 7, RACK_ROWS);
    for (uint64_t clock = 1; clock <= 60; clock++) {
        for (size_t on = 0; on < RACK_PROCESSORS; on++)
            done.bytes[on] = done.copy[on] = clock % 3 == 0 && open_on(&plan, &state, on + 1);
        tick(&plan, &state, &done, &released, 0, clock);
        for (size_t row = 0; row < RACK_ROWS; row++)
            steps += released.bytes[row];
    }
    if (steps == 0)
        fail("rack_tick: no row was released");
    give_back(file);
    give_back(out);
    give_back(exact);
    give_back(shorter);
    give_back(plan);
    give_back(state);
    give_back(released);
    give_back(few);
    give_back(done);
}

int main(void)
{
    files();
    fronts();
    changed_bytes();
    rooms();
    unwritten();
    refusals();
    lengths();
    table_words();
    state_words();
    widest();
    printf("lists: %" PRIu64 " calls; numbers", calls);
    for (int number = 0; number <= 14; number++)
        printf(" %d: %" PRIu64, number, seen[number]);
    printf("\n");
    for (int number = 0; number <= 14; number++)
        if (seen[number] == 0)
            fail("lists: number %d never came", number);
    return 0;
}
