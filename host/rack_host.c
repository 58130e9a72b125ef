/* A sample host: plays a script of arrivals and ticks on the guards of a plan.
 *
 *     rack_host PLAN SCRIPT
 *
 * It prints a line for every release, every end of a chain with its age and the chain's bound,
 * and every refused call. host/README.md has the words of a script. It ends with 0 if no chain
 * ended past its bound, 1 if one did or the plan is refused, 2 if a file can't be read or a
 * script line isn't understood.
 */
#include "rack.h"

#include <inttypes.h>
#include <stdarg.h>
#include <stdio.h>
#include <stdlib.h>
#include <string.h>

/* Everything the host keeps. The library keeps nothing. */
static uint8_t table[RACK_TABLE_BYTES];
static uint8_t state[RACK_STATE_BYTES];
static uint64_t processors, tasks, rows;
static uint64_t first_row[RACK_TASKS + 1];  /* index of a task's first row; behind the last, rows */
static uint64_t chain_bound[RACK_TASKS];
static uint64_t *arrived[RACK_TASKS];       /* the clock of each arrival, in order */
static size_t arrived_room[RACK_TASKS];
static uint64_t ends, late, refusals;

static void stop(const char *format, ...)
{
    va_list list;
    va_start(list, format);
    vfprintf(stderr, format, list);
    va_end(list);
    fputc('\n', stderr);
    exit(2);
}

/* Word i of a list. */
static uint64_t word(const uint8_t *list, uint64_t i)
{
    uint64_t value = 0;
    for (int byte = 7; byte >= 0; byte--)
        value = value << 8 | list[8 * i + (uint64_t)byte];
    return value;
}

/* Table and state by name; rows and tasks are counted from 0 here. */
static uint64_t steps(uint64_t task) { return word(table, 2 + 3 * task + 2); }
static uint64_t processor(uint64_t row) { return word(table, 98 + 3 * row); }
static uint64_t priority(uint64_t row) { return word(table, 98 + 3 * row + 1); }
static uint64_t time_of(uint64_t row) { return word(table, 98 + 3 * row + 2); }
static uint64_t now(void) { return word(state, 0); }
static uint64_t released(uint64_t row) { return word(state, 1 + 4 * row); }
static uint64_t completed(uint64_t row) { return word(state, 1 + 4 * row + 1); }
static uint64_t used(uint64_t row) { return word(state, 1 + 4 * row + 2); }

static uint64_t task_of(uint64_t row)
{
    uint64_t task = 0;
    while (first_row[task + 1] <= row)
        task++;
    return task;
}

/* The row that runs on a processor (counted from 1), or `rows` if none is open there. */
static uint64_t running(uint64_t on)
{
    uint64_t best = rows;
    for (uint64_t row = 0; row < rows; row++)
        if (processor(row) == on && completed(row) < released(row))
            if (best == rows || priority(row) > priority(best))
                best = row;
    return best;
}

/* Reads a whole file, a byte 0 behind it. */
static uint8_t *read_file(const char *name, size_t *length)
{
    FILE *file = fopen(name, "rb");
    if (!file)
        stop("%s: can't be read", name);
    size_t room = 4096, got;
    uint8_t *bytes = malloc(room + 1);
    *length = 0;
    while (bytes && (got = fread(bytes + *length, 1, room - *length, file)) > 0) {
        *length += got;
        if (*length == room)
            bytes = realloc(bytes, (room *= 2) + 1);
    }
    if (!bytes || ferror(file))
        stop("%s: can't be read", name);
    fclose(file);
    bytes[*length] = 0;
    return bytes;
}

/* The number behind `key=` if the line at `at` has that key. */
static int value_of(const char *at, const char *key, uint64_t *value)
{
    size_t length = strlen(key);
    if (strncmp(at, key, length) != 0 || at[length] != '=')
        return 0;
    *value = strtoull(at + length + 1, NULL, 10);
    return 1;
}

static const char *next_line(const char *at)
{
    const char *end = strchr(at, '\n');
    return end ? end + 1 : NULL;
}

/* Takes the chains' bounds and the verdict from the report's text. */
static uint64_t read_report(const char *text)
{
    uint64_t accepted = 0, task = 0, value;
    for (const char *at = text; at && *at; at = next_line(at)) {
        if (value_of(at, "task", &value))
            task = value;
        else if (value_of(at, "bound", &value) && task > 0)
            chain_bound[task - 1] = value;
        else
            value_of(at, "accepted", &accepted);
    }
    return accepted;
}

/* Reads the plan, its bounds and a fresh state. */
static void start(const char *name)
{
    size_t length;
    uint8_t *file = read_file(name, &length);
    uint8_t report[RACK_REPORT_BYTES + 1];
    rack_answer answer = rack_table(file, length, table, sizeof table);
    if (answer.number == 0) {
        rows = answer.value;
        answer = plan_report(file, length, report, RACK_REPORT_BYTES);
    }
    free(file);
    if (answer.number != 0) {
        printf("refused=%" PRIu64 "\nat=%" PRIu64 "\n", answer.number, answer.value);
        exit(1);
    }
    report[answer.value] = 0;
    processors = word(table, 0);
    tasks = word(table, 1);
    for (uint64_t task = 0; task < tasks; task++)
        first_row[task + 1] = first_row[task] + steps(task);
    uint64_t accepted = read_report((const char *)report);
    printf("plan processors=%" PRIu64 " tasks=%" PRIu64 " rows=%" PRIu64 " accepted=%" PRIu64 "\n",
           processors, tasks, rows, accepted);
    rack_fresh(table, sizeof table, state, sizeof state);
}

static void say_refusal(rack_answer answer, const char *call)
{
    refusals++;
    printf("clock=%" PRIu64 " refused=%" PRIu64 " at=%" PRIu64 " call=%s\n", now(), answer.number,
           answer.value, call);
}

static void say_release(uint64_t row)
{
    printf("clock=%" PRIu64 " release row=%" PRIu64 " task=%" PRIu64 " instance=%" PRIu64 "\n",
           now(), row + 1, task_of(row) + 1, released(row));
}

/* The instance of a chain that its last row has just completed. */
static void say_end(uint64_t task)
{
    uint64_t instance = completed(first_row[task + 1] - 1);
    uint64_t age = now() - arrived[task][instance - 1];
    ends++;
    printf("clock=%" PRIu64 " end task=%" PRIu64 " instance=%" PRIu64, now(), task + 1, instance);
    printf(" age=%" PRIu64 " bound=%" PRIu64 "%s\n", age, chain_bound[task],
           age > chain_bound[task] ? " LATE" : "");
    if (age > chain_bound[task])
        late++;
}

static void arrive(uint64_t number, const char *call)
{
    rack_answer answer = rack_arrive(table, sizeof table, state, sizeof state, number);
    if (answer.number != 0) {
        say_refusal(answer, call);
        return;
    }
    uint64_t task = number - 1, row = answer.value - 1, count = released(row);
    if (count > arrived_room[task]) {
        arrived_room[task] = 2 * count;
        arrived[task] = realloc(arrived[task], arrived_room[task] * sizeof *arrived[task]);
        if (!arrived[task])
            stop("no room for arrivals");
    }
    arrived[task][count - 1] = now();
    say_release(row);
}

/* One tick; prints what it released and ended. Answers whether it was taken. */
static int tick(const uint8_t *done, size_t done_len, const char *call)
{
    uint8_t list[RACK_ROWS];
    uint64_t before[RACK_TASKS];
    for (uint64_t task = 0; task < tasks; task++)
        before[task] = completed(first_row[task + 1] - 1);
    rack_answer answer =
        rack_tick(table, sizeof table, state, sizeof state, done, done_len, list, rows);
    if (answer.number != 0) {
        say_refusal(answer, call);
        return 0;
    }
    for (uint64_t task = 0; task < tasks; task++)
        if (completed(first_row[task + 1] - 1) > before[task])
            say_end(task);
    for (uint64_t row = 0; row < rows; row++)
        if (list[row] == 1)
            say_release(row);
    return 1;
}

/* Done bytes by which every running instance takes its full time. */
static void full_time(uint8_t *done)
{
    for (uint64_t on = 1; on <= processors; on++) {
        uint64_t row = running(on);
        done[on - 1] = row < rows && used(row) + 1 == time_of(row);
    }
}

/* The next word of a line as a number; 0 if the line has no further word. */
static int next_number(char **at, uint64_t *value, const char *line)
{
    char *end;
    *at += strspn(*at, " \t");
    if (**at == 0)
        return 0;
    *value = strtoull(*at, &end, 10);
    if (**at < '0' || **at > '9' || (*end != 0 && *end != ' ' && *end != '\t'))
        stop("not understood: %s", line);
    *at = end;
    return 1;
}

static void line_ends(const char *at, const char *line)
{
    if (at[strspn(at, " \t")] != 0)
        stop("not understood: %s", line);
}

/* Moves past a word if it stands next on the line. */
static int next_word(char **at, const char *expected)
{
    size_t length = strlen(expected);
    char *from = *at + strspn(*at, " \t");
    if (strncmp(from, expected, length) != 0 || strchr(" \t", from[length]) == NULL)
        return 0;
    *at = from + length;
    return 1;
}

/* What follows `tick` on a line: nothing, or one of the words below and numbers. */
static void tick_line(char *at, const char *line)
{
    uint8_t done[RACK_PROCESSORS + 1];
    size_t done_len = processors;
    uint64_t value;
    full_time(done);
    if (next_word(&at, "done")) {
        for (done_len = 0; next_number(&at, &value, line); done_len++) {
            if (value > 255 || done_len > RACK_PROCESSORS)
                stop("not understood: %s", line);
            done[done_len] = (uint8_t)value;
        }
    } else {
        int end = next_word(&at, "end");
        if (end || next_word(&at, "hold"))
            while (next_number(&at, &value, line)) {
                if (value < 1 || value > processors)
                    stop("no such processor: %s", line);
                done[value - 1] = (uint8_t)end;
            }
    }
    line_ends(at, line);
    tick(done, done_len, line);
}

static void play(char *line)
{
    uint64_t value;
    char *at = line;
    if (next_word(&at, "arrive")) {
        if (!next_number(&at, &value, line))
            stop("not understood: %s", line);
        line_ends(at, line);
        arrive(value, line);
    } else if (next_word(&at, "ticks")) {
        if (!next_number(&at, &value, line))
            stop("not understood: %s", line);
        line_ends(at, line);
        for (int taken = 1; value > 0 && taken; value--) {
            uint8_t done[RACK_PROCESSORS];
            full_time(done);
            taken = tick(done, processors, line);
        }
    } else if (next_word(&at, "tick")) {
        tick_line(at, line);
    } else {
        stop("not understood: %s", line);
    }
}

int main(int argc, char **argv)
{
    if (argc != 3)
        stop("usage: rack_host PLAN SCRIPT");
    start(argv[1]);
    size_t length;
    char *script = (char *)read_file(argv[2], &length);
    for (char *line = strtok(script, "\r\n"); line; line = strtok(NULL, "\r\n"))
        if (line[0] != '#' && line[strspn(line, " \t")] != 0)
            play(line);
    printf("played clock=%" PRIu64 " ends=%" PRIu64 " late=%" PRIu64 " refusals=%" PRIu64 "\n",
           now(), ends, late, refusals);
    free(script);
    for (uint64_t task = 0; task < tasks; task++)
        free(arrived[task]);
    return late > 0;
}
