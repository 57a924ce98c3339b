/* The comparison of the archive with the independent program: what its files
 * share.
 *
 * A scenario is a program with all that is lent to begin with, and a row of
 * calls that go on from each other. It is data, so that it can be drawn from
 * a seed, shrunk and printed. */
#ifndef COMPARISON_H
#define COMPARISON_H

#include <stdbool.h>

#include "independent.h"
#include "../records.h"

/* How many entries an array has. */
#define COUNT(row) (sizeof(row) / sizeof *(row))

enum {
    MOST_LIST_RECORDS = MOST_LIST_BYTES / RECORD_BYTES,
    TABLE_ROOM = (MOST_RECORDS + 8) * RECORD_BYTES,
    MARKS_ROOM = MOST_RECORDS + 8,
    VARIABLES_ROOM = VARIABLES + 8,
    MOST_CALLS = 48,
    MOST_FEW = 8,
    GUARD = 64, /* bytes on both sides of each slice */
    NEVER = -1
};

enum call_kind { CHECK, START, REACT, RUN_LIST, QUERY, REMAINING, CALLS };
enum slice { TABLE, MARKS, VARIABLE, EVENTS, OUT, TOTALS, SLICES };

/* A slice's length: the right one, a wrong one. */
enum how_long {
    RIGHT,
    OFF, /* right + off bytes (variables: right + off variables) */
    ZERO,
    ZERO_NULL, /* with a null pointer */
    HUGE_MORE, /* right + 2^32; of the room 2^32 */
    HOW_LONG
};

struct length {
    uint8_t how;
    int32_t off;
};

/* The list: record i is odd where i is odd_at, else few[i % different]. */
struct list {
    uint32_t records, different;
    int32_t odd_at;
    uint64_t few[MOST_FEW], odd;
};

struct call {
    uint8_t kind;
    uint8_t shift;     /* how far byte slices are from a multiple of 8 */
    uint8_t fenced;    /* slices end where memory ends, without a guard */
    uint8_t new_marks; /* the marks are replaced by these before the call */
    struct length lengths[SLICES];
    uint32_t event;
    int32_t value;
    struct list list;
    uint8_t marks[MARKS_ROOM];
};

/* All that is lent and goes on from call to call. */
struct state {
    uint8_t marks[MARKS_ROOM];
    int32_t variables[VARIABLES_ROOM];
    uint64_t totals[2];
};

struct scenario {
    uint64_t seed, number;
    const char *name; /* of a directed one, else NULL */
    uint32_t records;
    uint8_t table[TABLE_ROOM];
    struct state first;
    int32_t calls;
    struct call call[MOST_CALLS];
};

/* The answers of all calls, field for field. */
enum field {
    REFUSED,
    PLACE,
    FINISHED,
    HIGHEST,
    STEPS,
    EMITTED,
    OUTPUTS,
    NUMBER,
    LOWEST,
    RECORDS,
    FIELDS
};

struct answer {
    uint64_t field[FIELDS];
};

/* A difference: which check fails, at which byte, and both answers. */
struct difference {
    const char *check; /* NULL: none */
    int32_t call;
    size_t at, lengths[SLICES];
    uint32_t ours_there, theirs_there;
    struct answer ours, theirs;
};

/* draw.c: chance. */
void draw_from(uint64_t seed, uint64_t number);
uint32_t draw(uint32_t below);
bool one_in(uint32_t times);
int32_t draw_number(void);

/* grow.c, marks.c, scenario.c: programs, marks, scenarios. */
uint32_t grow_program(uint8_t *table, uint32_t most, bool careless);
bool waits(uint32_t kind);
void fitting_marks(const uint8_t *table, uint8_t *marks);
void draw_scenario(struct scenario *s, uint64_t seed, uint64_t number);
void add_record(struct scenario *s, uint32_t kind, uint32_t name,
                int32_t number);
struct call *add_call(struct scenario *s, enum call_kind kind);

/* damage.c: wrong tables, marks, lengths, events, lists. */
void damage_table(struct scenario *s);
void damage_call(struct scenario *s, struct call *c);

/* directed.c, directed_lengths.c, directed_records.c: each calls attempt for
 * every directed scenario; false stops. */
typedef bool (*try_scenario)(struct scenario *s);
bool directed(try_scenario attempt);
bool directed_lengths(try_scenario attempt);
bool directed_records(try_scenario attempt);
void begin_directed(struct scenario *s, const char *name);

/* lend.c, memory.c: the memory of both sides, and its checks. */
struct lent {
    uint8_t *bytes;       /* NULL where a null pointer is lent */
    uint8_t *place;       /* where the slice stands between its guards */
    size_t count, length; /* length in bytes */
    bool huge, fenced;
};
struct lending {
    struct lent before[SLICES], ours[SLICES], theirs[SLICES];
};
void lend(struct lending *l, const struct scenario *s, const struct call *c,
          const struct state *state);
const char *same_memory(const struct lending *l, struct difference *d,
                        const struct call *c);
void take_back(const struct lending *l, struct state *state);

/* watch.c: calls that crash or do not end. */
void watch(void);
void be_patient(uint32_t seconds);
const char *call_watched(struct lending *l, struct difference *d,
                         const struct call *c);

/* call.c: one call on both sides. */
void call_both(struct lending *l, struct difference *d, const struct call *c);
void compare_call(const struct scenario *s, const struct call *c,
                  struct state *state, struct difference *d, bool counted);
const char *call_name(uint32_t kind);
const char *field_name(uint32_t field);
bool takes(uint32_t kind, uint32_t slice);
bool can_refuse(uint32_t kind, uint32_t refusal);

/* replay.c: a whole scenario. counted: it counts for the report. */
void replay(const struct scenario *s, struct difference *d, bool counted);
uint64_t calls_compared(void);

/* shrink.c, edit.c, print.c */
void shrink(struct scenario *s, struct difference *d, uint32_t seconds);
bool delete_records(struct scenario *s, size_t place, size_t number);
void print_failure(const struct scenario *s, const struct difference *d);
void print_scenario(const struct scenario *s);

/* cover.c: what was met. */
void cover(const struct scenario *s, const struct call *c,
           const struct lending *l, const struct answer *a);
uint32_t print_coverage(void); /* returns how many entries are zero */

#endif
