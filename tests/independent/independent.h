/* An independent program for comparison: it rewrites a tree one rule at a
 * time, as document 01 writes the rules. It is slow and plain on purpose.
 * Nothing is read or written outside the given lengths. */
#ifndef INDEPENDENT_H
#define INDEPENDENT_H

#include <stddef.h>
#include <stdint.h>

/* Not a number of document 01: no rule applied, the rules came to no end, or
 * more outputs came than announced. No input is known that gives it. */
#define INDEPENDENT_BROKEN 99u

/* refused 0: accepted, with the announced numbers; else the refusal's number
 * and place, and announced numbers 0. */
struct independent_checked {
    uint32_t refused, place, emitted, highest, steps, outputs;
};

/* finished is 1, waiting is 0. */
struct independent_answer {
    uint32_t refused, place, finished, highest;
    uint64_t steps, emitted, outputs;
};

struct independent_totals {
    uint64_t reactions, steps;
};

struct independent_query {
    uint32_t refused, place, number, lowest;
};

struct independent_remaining {
    uint32_t refused, place, records;
};

struct independent_checked independent_check(const uint8_t *table,
                                             size_t table_bytes);

struct independent_answer independent_start(const uint8_t *table,
                                            size_t table_bytes, uint8_t *marks,
                                            size_t marks_bytes,
                                            int32_t *variables,
                                            size_t variables_count,
                                            uint8_t *out, size_t out_bytes);

struct independent_answer independent_react(
    const uint8_t *table, size_t table_bytes, uint8_t *marks,
    size_t marks_bytes, int32_t *variables, size_t variables_count,
    uint32_t event, int32_t value, uint8_t *out, size_t out_bytes,
    struct independent_totals *totals);

struct independent_answer independent_run_list(
    const uint8_t *table, size_t table_bytes, uint8_t *marks,
    size_t marks_bytes, int32_t *variables, size_t variables_count,
    const uint8_t *events, size_t events_bytes, uint8_t *out, size_t out_bytes,
    struct independent_totals *totals);

struct independent_query independent_query(const uint8_t *table,
                                           size_t table_bytes,
                                           const uint8_t *marks,
                                           size_t marks_bytes);

struct independent_remaining independent_remaining(
    const uint8_t *table, size_t table_bytes, const uint8_t *marks,
    size_t marks_bytes, uint8_t *out, size_t out_bytes);

/* The rules of a reaction. Those called "within" are no steps of their own:
 * they say where in a construct the one step is taken. */
enum independent_rule {
    RULE_NONE, /* no rule applies */
    RULE_PUSH,
    RULE_POP,
    RULE_SET,
    RULE_ADD,
    RULE_COPY,
    RULE_SUBTRACT,
    RULE_LESS,
    RULE_DIVIDE,
    RULE_OUTPUT,
    RULE_EMIT,
    RULE_CANRUN,
    RULE_IF_LEFT,
    RULE_IF_RIGHT,
    RULE_NOP_SEQUENCE,
    RULE_BREAK_SEQUENCE,
    RULE_LOOP,
    RULE_NOP_LOOP,
    RULE_BREAK_LOOP,
    RULE_AND,
    RULE_OR,
    RULE_NOP_AND,
    RULE_NOP_OR,
    RULE_BREAK_AND,
    RULE_BREAK_OR,
    RULE_AND_NOP,
    RULE_OR_NOP,
    RULE_AND_BREAK,
    RULE_OR_BREAK,
    RULE_WITHIN_SEQUENCE,
    RULE_WITHIN_LOOP,
    RULE_WITHIN_AND_LEFT,
    RULE_WITHIN_OR_LEFT,
    RULE_WITHIN_AND_RIGHT,
    RULE_WITHIN_OR_RIGHT,
    RULE_AWAKE_AWAIT_INPUT, /* within push, once for each place woken */
    RULE_AWAKE_AWAIT_INTERNAL,
    RULE_AWAKE_EVERY_INPUT,
    RULE_AWAKE_EVERY_INTERNAL,
    INDEPENDENT_RULES
};

#define INDEPENDENT_KINDS 24    /* 0 to 19, then @loop, @and, @or, @canrun */
#define INDEPENDENT_REFUSALS 13 /* entry 0 counts the accepted calls */

/* How often each refusal was answered, each rule applied, each kind built as
 * a node of a tree. */
struct independent_coverage {
    uint64_t refusals[INDEPENDENT_REFUSALS];
    uint64_t rules[INDEPENDENT_RULES];
    uint64_t kinds[INDEPENDENT_KINDS];
};

const struct independent_coverage *independent_coverage_read(void);
void independent_coverage_reset(void);
const char *independent_rule_name(enum independent_rule rule);

#endif
