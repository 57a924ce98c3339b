/* What the files of the quick interpreter share. */
#ifndef QUICK_PARTS_H
#define QUICK_PARTS_H

#include <stdbool.h>

#include "../records.h"

/* For what is taken apart only to be read: it stays one function. */
#define INLINE static inline __attribute__((always_inline))

/* A set of kinds, and whether a kind is in it. */
#define KIND_BIT(kind) (1u << (kind))
#define IN_KINDS(set, kind) (((set) >> (kind)) & 1u)

#define WAITING_KINDS                                                         \
    (KIND_BIT(AWAIT_INPUT) | KIND_BIT(AWAIT_INTERNAL) |                       \
     KIND_BIT(EVERY_INPUT) | KIND_BIT(EVERY_INTERNAL) | KIND_BIT(FIN))
#define PLAIN_KINDS (0xffu | KIND_BIT(IF) | KIND_BIT(SEQUENCE))

/* What follows when a construct has become @nop: one of these in the high
 * byte, a place in the low byte. */
enum after {
    THEN = 0,    /* the left of a sequence: on at the sequence's right */
    AGAIN,       /* the body of the loop at the place */
    LEFT_OF_AND, /* one side of the and, the or at the place */
    RIGHT_OF_AND,
    LEFT_OF_OR,
    RIGHT_OF_OR,
    EVERY_BODY, /* the body of the every at the place */
    FIN_BODY,   /* the body of a fin, run by a clear */
    PROGRAM     /* the program itself */
};

/* What the check counts: N, E, D, P, Q of the announced numbers. */
struct counts {
    size_t records;
    uint32_t emits, deepest, outside, inside;
};

/* What a reaction needs to know of a program beside its records. Places that
 * wait for one event form a chain of numbers place + 1 that ends with 0;
 * row 0 is of input events, row 1 of internal ones. */
struct plan {
    uint16_t after[MOST_RECORDS];
    uint16_t first_waiter[2][LAST_NAME + 1];
    uint16_t next_waiter[MOST_RECORDS + 1];
};

struct refusal {
    uint32_t number, place;
};

/* quick_check.c: stages 1 to 7 in one pass. True where the table is accepted;
 * otherwise the contents of counts and plan mean nothing. */
bool quick_accepts(const uint8_t *table, size_t bytes, struct counts *counts);
bool quick_plans(const uint8_t *table, size_t bytes, struct counts *counts,
                 struct plan *plan);

/* quick_refuse.c: which stage fails, and where, once one is known to. */
struct refusal quick_why_table(const uint8_t *table, size_t bytes);
struct refusal quick_why_marks(const uint8_t *table, size_t records,
                               const uint8_t *marks);

/* A reaction's state of a record. At rest there are BOTH and ONE only. */
enum state {
    IDLE,
    BOTH,    /* an @and or @or */
    ONE,     /* an and of which one side is left */
    WOKEN,   /* an await or every that was woken and has not yet gone on */
    PENDING, /* the right of an and or or: @canrun before it */
    RESUMED  /* an emit: @canrun in its place */
};

/* Entries of the stack of canruns. A record is entered at most D + 1 times in
 * a reaction, so that many are ever put on it, and one below them all. */
enum { MOST_CANRUNS = MOST_RECORDS * (MOST_LOOPS + 1) + 1 };

struct reaction {
    const uint8_t *table;
    uint8_t *marks;
    int32_t *variables;
    uint8_t *out; /* where the next output goes */
    uint64_t steps;
    uint32_t emitted, level, highest, finished;
    uint32_t top;        /* of the canruns */
    uint32_t some_woken; /* which words of the woken are not 0 */
    uint64_t woken[MOST_RECORDS / 64];
    uint8_t state[MOST_RECORDS];
    struct plan plan;
    uint32_t canruns[MOST_CANRUNS]; /* level * 256 + place */
};

/* quick_run.c: runs the program itself; runs one input event. */
void quick_run_start(struct reaction *x);
void quick_run_event(struct reaction *x, uint32_t event);

#endif
