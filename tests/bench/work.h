/* What the benchmark gives to an interpreter: a program and 100 events. */
#ifndef WORK_H
#define WORK_H

#include <stdbool.h>

#include "../records.h"

enum { WORK_EVENTS = 100, OUT_BYTES = 1 << 20 };

struct work {
    uint8_t table[MOST_RECORDS * RECORD_BYTES];
    uint32_t records;
    uint8_t events[WORK_EVENTS * RECORD_BYTES];
    uint32_t event_count; /* WORK_EVENTS once the work is whole */
};

/* Each appends one; records are in preorder, and their spans come last. */
void add_record(struct work *w, uint32_t kind, uint32_t name, int32_t number);
void add_event(struct work *w, uint32_t event, int32_t value);

/* Fills the work of this name; false where there is none. The names:
 *   small, medium, full         programs of 10, 65 and 256 records
 *   small-ignored, ...          the same with events that nobody awaits
 *   scenario                    the contact scenario
 *   chain                       50 emits, each nested in the one before
 *   records-N                   N records, N a multiple of 8 up to 256
 *   records-N-ignored
 *   levels-L                    256 records, L emits nested, L from 1 to 50 */
bool make_work(struct work *w, const char *name);

/* scenario.c */
void make_scenario(struct work *w);

/* machine.c: the scenario written by hand. */
struct machine {
    bool has_easting;
    int32_t easting, northing, contacts;
};

struct machine machine_start(void);

/* Writes at most 3 outputs of 8 bytes; returns how many, or -1 where there is
 * room for less than 3. A list stops there and gives what it has written. */
int machine_react(struct machine *m, uint32_t event, int32_t value,
                  uint8_t *out, size_t out_bytes);
size_t machine_run_list(struct machine *m, const uint8_t *events,
                        size_t events_bytes, uint8_t *out, size_t out_bytes);

#endif
