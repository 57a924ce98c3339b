/* The runner: reads program.rec and events.rec in the current folder, runs
 * the events and prints what happens. */
#include <inttypes.h>
#include <stdio.h>

#include "internal.h"

enum {
    MOST_TABLE_BYTES = MOST_RECORDS * RECORD_BYTES,
    OUTPUT_ROOM = 8192 /* records */
};

/* One byte more than allowed tells that a file is too long. */
static uint8_t table[MOST_TABLE_BYTES + 1];
static uint8_t events[MOST_LIST_BYTES + 1];
static uint8_t out[OUTPUT_ROOM * RECORD_BYTES];
static uint8_t marks[MOST_RECORDS];
static int32_t variables[VARIABLES];

/* "a missing file is empty" */
static size_t read_file(const char *name, uint8_t *bytes, size_t most)
{
    FILE *file = fopen(name, "rb");
    size_t len;
    if (file == NULL)
        return 0;
    len = fread(bytes, 1, most, file);
    fclose(file);
    return len;
}

/* "A refusal prints `refused`, number, place and ends." */
static int print_refused(uint32_t number, uint32_t place)
{
    printf("refused %" PRIu32 " %" PRIu32 "\n", number, place);
    return 0;
}

/* "event, value, steps, emitted, highest level, outputs, `waiting` or
 * `finished`; after each, one line `out`, name, value for each of its
 * outputs" */
static void print_lines(uint32_t event, int32_t value,
                        const struct independent_answer *a)
{
    printf("%" PRIu32 " %" PRId32 " %" PRIu64 " %" PRIu64 " %" PRIu32
           " %" PRIu64 " %s\n",
           event, value, a->steps, a->emitted, a->highest, a->outputs,
           a->finished ? "finished" : "waiting");
    for (uint64_t i = 0; i < a->outputs; i++)
        printf("out %u %" PRId32 "\n", (unsigned)out[i * RECORD_BYTES],
               ind_read_number(out + i * RECORD_BYTES + 4));
}

/* "It prints a line for the start and for each event". */
static int print_run(size_t table_bytes, size_t events_bytes)
{
    struct independent_totals totals = {0, 0};
    size_t records = table_bytes / RECORD_BYTES;
    struct independent_answer a =
        independent_start(table, table_bytes, marks, records, variables,
                          VARIABLES, out, sizeof out);
    if (a.refused != 0)
        return print_refused(a.refused, a.place);
    print_lines(0, 0, &a);
    for (size_t at = 0; at < events_bytes; at += RECORD_BYTES) {
        int32_t value = ind_read_number(events + at + 4);
        a = independent_react(table, table_bytes, marks, records, variables,
                              VARIABLES, events[at], value, out, sizeof out,
                              &totals);
        if (a.refused != 0)
            return print_refused(a.refused, a.place);
        print_lines(events[at], value, &a);
    }
    return 0;
}

/* "Table, output room and event file are tested in that order before the first
 * line is printed."  "Announced outputs over 8,192 print `refused 11 0`." */
int main(void)
{
    size_t table_bytes = read_file("program.rec", table, sizeof table);
    size_t events_bytes = read_file("events.rec", events, sizeof events);
    struct independent_checked checked = independent_check(table, table_bytes);
    struct refusal r;
    if (checked.refused != 0)
        return print_refused(checked.refused, checked.place);
    if (checked.outputs > OUTPUT_ROOM)
        return print_refused(11, 0);
    r = ind_list_stage_10(events, events_bytes);
    if (r.number != 0)
        return print_refused(r.number, r.place);
    return print_run(table_bytes, events_bytes);
}
