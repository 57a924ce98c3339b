/* Landarbeso: a proved interpreter for contact programs. C99 and C++.
 *
 * A program is a table of 8-byte records. The caller owns all memory: a call
 * borrows what it is handed for as long as it runs, keeps nothing, allocates
 * nothing, and never reads or writes outside the lengths that it is given.
 * Every call ends with an answer on every input; nothing has to be checked
 * beforehand. Two slices of one call must not overlap; a pointer may be null
 * only where its length is 0. All numbers in slices are little-endian, as the
 * machine's are.
 *
 * A refused call answers its number in `refused` and where in `place`, zero
 * counts and `finished` 0, and leaves all that was lent as it was. Only
 * refusal 12 keeps what had been done: the events before `place` stand, and
 * the counts are theirs. */
#ifndef LANDARBESO_H
#define LANDARBESO_H

#include <stddef.h>
#include <stdint.h>

#ifdef __cplusplus
extern "C" {
#endif

#define LANDARBESO_RECORD_BYTES 8
#define LANDARBESO_MOST_RECORDS 256
#define LANDARBESO_VARIABLES 64
#define LANDARBESO_MOST_LIST_BYTES 65536

/* The refusals; 0 is none. */
enum landarbeso_refusal {
    /* the table's length is 0, no multiple of 8, or over 2,048 bytes */
    LANDARBESO_WRONG_LENGTH = 1,
    /* a record's kind or span is wrong, or a child would stand past the end */
    LANDARBESO_WRONG_SHAPE = 2,
    /* a record's name or number is outside its kind's range */
    LANDARBESO_OUT_OF_RANGE = 3,
    /* a break with no loop around it */
    LANDARBESO_LOOSE_BREAK = 4,
    /* under an every or a fin, a kind other than 0 to 7, 12, 13 */
    LANDARBESO_NOT_PLAIN = 5,
    /* a loop inside eight others */
    LANDARBESO_DEEP_LOOP = 6,
    /* a loop whose body may end at once */
    LANDARBESO_ENDLESS_LOOP = 7,
    /* the marks: not one byte for each record; a byte over 1, or a 1 on a kind
     * that does not wait; or marks that do not fit */
    LANDARBESO_WRONG_MARKS = 8,
    /* not exactly 64 variables */
    LANDARBESO_WRONG_VARIABLES = 9,
    /* an event that is 0 or over 63; a list over 65,536 bytes (place 8192), or
     * its first bad record */
    LANDARBESO_WRONG_EVENT = 10,
    /* the output room, in whole records of 8 bytes, is below the announced
     * outputs */
    LANDARBESO_NO_ROOM = 11,
    /* a list stopped for room; place is the index of the first event not
     * taken */
    LANDARBESO_STOPPED = 12
};

/* What the check of a table answers: refused 0 and the announced numbers,
 * which no start and no reaction of the program passes; or a refusal, beside
 * which they are 0. */
struct landarbeso_checked {
    uint32_t refused;
    uint32_t place;
    uint32_t emitted;
    uint32_t highest;
    uint32_t steps;
    uint32_t outputs;
};

/* What a start, a reaction or a list answers: whether the program has finished
 * (1) or waits (0), the steps of the rules that it took, the internal events
 * that it emitted, the highest level that it came to, and the outputs that it
 * wrote. */
struct landarbeso_answer {
    uint32_t refused;
    uint32_t place;
    uint32_t finished;
    uint32_t highest;
    uint64_t steps;
    uint64_t emitted;
    uint64_t outputs;
};

/* Running totals. Each reaction adds 1 and its steps; both stop at 2^64 - 1. A
 * start is not counted. */
struct landarbeso_totals {
    uint64_t reactions;
    uint64_t steps;
};

/* How many different input events now wake some place, and the lowest of them;
 * 0 where there is none. */
struct landarbeso_queried {
    uint32_t refused;
    uint32_t place;
    uint32_t number;
    uint32_t lowest;
};

/* How many records the remaining program has. */
struct landarbeso_written {
    uint32_t refused;
    uint32_t place;
    uint32_t records;
};

/* Refusals 1 to 7. */
struct landarbeso_checked landarbeso_check(const uint8_t *table,
                                           size_t table_bytes);

/* Starts the program: writes every mark, sets variable 0 to 0, runs the
 * program until every trail waits or it has finished, and writes its outputs
 * at the front of `out` (8 bytes each: name, three zeros, value); the bytes
 * behind them stay. Refusals 1 to 7, 8 for the marks' length only, 9, 11. */
struct landarbeso_answer landarbeso_start(const uint8_t *table,
                                          size_t table_bytes, uint8_t *marks,
                                          size_t marks_bytes,
                                          int32_t *variables,
                                          size_t variables_count, uint8_t *out,
                                          size_t out_bytes);

/* Reacts to one input event: puts the value in variable 0, wakes what waits
 * for the event, and runs until every trail waits again or the program has
 * finished. An internal event's emitter goes on only after those it woke.
 * Refusals 1 to 11. */
struct landarbeso_answer landarbeso_react(
    const uint8_t *table, size_t table_bytes, uint8_t *marks,
    size_t marks_bytes, int32_t *variables, size_t variables_count,
    uint32_t event, int32_t value, uint8_t *out, size_t out_bytes,
    struct landarbeso_totals *totals);

/* Reacts to a list of events of 8 bytes each (event, three zeros, value), one
 * after the other; outputs go one behind the other. The list is tested whole
 * before its first event. The answer adds up steps, internal events and
 * outputs, and has the highest level among them. Refusals 1 to 10, 12. */
struct landarbeso_answer landarbeso_run_list(
    const uint8_t *table, size_t table_bytes, uint8_t *marks,
    size_t marks_bytes, int32_t *variables, size_t variables_count,
    const uint8_t *events, size_t events_bytes, uint8_t *out, size_t out_bytes,
    struct landarbeso_totals *totals);

/* Refusals 1 to 8. */
struct landarbeso_queried landarbeso_query(const uint8_t *table,
                                           size_t table_bytes,
                                           const uint8_t *marks,
                                           size_t marks_bytes);

/* Writes the remaining program at the front of `out` as records in preorder
 * with new spans (kinds 20, 21, 22 for a loop, an and, an or that has begun);
 * the bytes behind them stay. Refusals 1 to 8, then 11 where `out` has too few
 * whole records. */
struct landarbeso_written landarbeso_remaining(const uint8_t *table,
                                               size_t table_bytes,
                                               const uint8_t *marks,
                                               size_t marks_bytes,
                                               uint8_t *out, size_t out_bytes);

#ifdef __cplusplus
}
#endif

#endif
