/* What the files of the independent program share among themselves. */
#ifndef INDEPENDENT_INTERNAL_H
#define INDEPENDENT_INTERNAL_H

#include <stdbool.h>

#include "independent.h"

enum {
    RECORD_BYTES = 8,
    MOST_RECORDS = 256,
    MOST_LOOPS = 8,
    VARIABLES = 64,
    LAST_NAME = 63,
    MOST_LIST_BYTES = 65536,
    LIST_TOO_LONG_PLACE = 8192,
    /* Above every announced number of steps (at most 603,888). */
    STEPS_WITHOUT_END = 1000000
};

enum kind {
    NOTHING = 0, /* @nop is kind 0 */
    SET = 1,
    ADD = 2,
    COPY = 3,
    SUBTRACT = 4,
    LESS = 5,
    DIVIDE = 6,
    OUTPUT = 7,
    AWAIT_INPUT = 8,
    AWAIT_INTERNAL = 9,
    EMIT = 10,
    BREAK = 11,
    IF = 12,
    SEQUENCE = 13,
    LOOP = 14,
    EVERY_INPUT = 15,
    EVERY_INTERNAL = 16,
    AND = 17,
    OR = 18,
    FIN = 19,
    LAST_KIND = 19,
    AT_LOOP = 20,
    AT_AND = 21,
    AT_OR = 22,
    AT_CANRUN = 23 /* its number is m */
};

struct record {
    uint32_t kind, name, span;
    int32_t number;
};

struct program {
    size_t count;
    struct record records[MOST_RECORDS];
};

struct refusal {
    uint32_t number, place; /* number 0: not refused */
};

struct node {
    uint32_t kind, place, name;
    int32_t number;
    struct node *left, *right; /* the only child is the left one */
};

enum pending { NO_EVENT, INPUT_EVENT, INTERNAL_EVENT };

struct event {
    enum pending pending;
    uint32_t number;
};

struct outputs {
    uint8_t *bytes;
    size_t room; /* in whole records */
    size_t written;
};

/* "A description is a tree, a level and a pending event", and beside it what
 * the rules act on and what the answer counts. */
struct description {
    struct node *tree;
    uint32_t level;
    struct event pending;
    int32_t *variables;
    struct outputs outputs;
    uint32_t highest;
    uint64_t emitted;
};

/* records.c */
struct refusal ind_accepted(void);
struct refusal ind_refuse(uint32_t number, size_t place);
int32_t ind_signed(uint32_t bits);
int32_t ind_read_number(const uint8_t *bytes);
void ind_write_number(uint8_t *bytes, int32_t number);
unsigned ind_children(uint32_t kind);
size_t ind_second_child(const struct program *p, size_t place);
struct refusal ind_stages_1_to_3(const uint8_t *table, size_t table_bytes,
                                 struct program *p);

/* check.c */
struct refusal ind_stages_1_to_7(const uint8_t *table, size_t table_bytes,
                                 struct program *p);
struct independent_checked ind_announced(const struct program *p);

/* marks.c */
struct refusal ind_stage_8_length(const struct program *p, size_t marks_bytes);
struct refusal ind_stage_8(const struct program *p, const uint8_t *marks,
                           size_t marks_bytes);
struct node *ind_tree_at_rest(const struct program *p, const uint8_t *marks);
void ind_write_marks(const struct program *p, const struct node *tree,
                     uint8_t *marks);
bool ind_all_zero(const uint8_t *marks, size_t marks_bytes);

/* tree.c */
struct node *ind_node(uint32_t kind, uint32_t place, struct node *left,
                      struct node *right);
struct node *ind_program_tree(const struct program *p, size_t place);
struct node *ind_copy(const struct node *n);
void ind_free(struct node *n);
size_t ind_size(const struct node *n);
bool ind_same_tree(const struct node *a, const struct node *b);

/* spine.c */
bool ind_blocked(const struct node *n, uint32_t level);
struct node *ind_awake(struct node *n, struct event event);
struct node *ind_clear(struct node *n);

/* rules.c */
bool ind_ended(const struct description *d);
enum independent_rule ind_step(struct description *d);

/* list.c */
struct refusal ind_list_stage_10(const uint8_t *events, size_t events_bytes);

/* calls.c */
struct refusal ind_reaction_stages_1_to_9(
    const uint8_t *table, size_t table_bytes, const uint8_t *marks,
    size_t marks_bytes, size_t variables_count, struct program *p);
struct independent_answer ind_refused_answer(struct refusal r);
struct independent_answer ind_run(const struct program *p, struct node *tree,
                                  struct event event, uint8_t *marks,
                                  int32_t *variables, struct outputs outputs);
void ind_add_to_totals(struct independent_totals *totals, uint64_t steps);

/* coverage.c */
uint32_t ind_met_refusal(uint32_t number);
void ind_met_rule(enum independent_rule rule);
void ind_met_kind(uint32_t kind);

#endif
