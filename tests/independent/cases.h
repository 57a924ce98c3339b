/* What the files of the test share. */
#ifndef INDEPENDENT_CASES_H
#define INDEPENDENT_CASES_H

#include "internal.h"

enum {
    SESSION_TABLE = 258 * RECORD_BYTES,
    SESSION_MARKS = 264, /* so that no padding stands in a session */
    SESSION_OUT = 64 * RECORD_BYTES
};

/* One record of a program; its span is worked out. */
struct line {
    uint32_t kind, name;
    int32_t number;
};

/* A program and all that is lent to the calls. */
struct session {
    uint8_t table[SESSION_TABLE];
    size_t table_bytes, records;
    uint8_t marks[SESSION_MARKS];
    int32_t variables[VARIABLES];
    uint8_t out[SESSION_OUT];
    struct independent_totals totals;
};

#define LINES(...)                                                            \
    (const struct line[]){__VA_ARGS__},                                       \
        sizeof((const struct line[]){__VA_ARGS__}) / sizeof(struct line)

/* Counted, and printed where it fails. */
void expect(const char *name, bool holds);
void expect_number(const char *name, int64_t got, int64_t want);

/* So many bytes of zeros; the test ends where there is no memory. */
void *room_for(size_t bytes);

unsigned children(uint32_t kind);
size_t make_table(uint8_t *table, const struct line *lines, size_t count);
void open_session(struct session *s, const struct line *lines, size_t count);
/* loop (await 1; output 1 v0): example 5, announced outputs 2 */
void open_echo(struct session *s);
struct independent_checked check(const struct session *s);
struct independent_answer start(struct session *s);
struct independent_answer react(struct session *s, uint32_t event,
                                int32_t value);
struct independent_answer run_list(struct session *s, const uint8_t *events,
                                   size_t events_bytes, size_t out_bytes);
int32_t number_at(const uint8_t *bytes);
void expect_answer(const char *name, struct independent_answer a,
                   uint64_t steps, uint64_t emitted, uint32_t highest,
                   uint64_t outputs, bool finished);
void expect_refused(const char *name, struct independent_answer a,
                    uint32_t number, uint32_t place);
void expect_check_refused(const char *name, struct session *s, uint32_t number,
                          uint32_t place);
void expect_output(const char *name, const struct session *s, size_t index,
                   uint32_t output, int32_t value);

void cases_examples(void);
void cases_check(void);
void cases_refusals(void);
void cases_lists(void);
void cases_calls(void);
void cases_rules(void);
void cases_runner(const char *runner, const char *folder);
void cases_random(uint64_t seed);
void cases_fuzz(uint64_t seed);

#endif
