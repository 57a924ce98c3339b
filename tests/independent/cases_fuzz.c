/* Random bytes in every argument: no call reads or writes outside, none
 * breaks, and a refusal other than 12 changes nothing. */
#include <stdio.h>
#include <stdlib.h>
#include <string.h>

#include "cases.h"
#include "generate.h"

enum { FUZZ_ROUNDS = 30000, FUZZ_OUT = 40, FUZZ_EVENTS = 64 };

/* All that is lent, in buffers of the lengths given. */
struct lent {
    uint8_t *table, *marks, *events, *out;
    int32_t *variables;
    size_t table_bytes, marks_bytes, events_bytes, out_bytes, variables_count;
    struct independent_totals totals;
};

static void *copy_of(const void *bytes, size_t len)
{
    void *copy = room_for(len);
    if (len > 0)
        memcpy(copy, bytes, len);
    return copy;
}

static void fill(struct chance *c, uint8_t *bytes, size_t len, uint32_t below)
{
    for (size_t i = 0; i < len; i++)
        bytes[i] = (uint8_t)draw(c, below);
}

/* Changes a few bytes, to values that often have a meaning. */
static void spoil(struct chance *c, uint8_t *bytes, size_t len, uint32_t times)
{
    while (len > 0 && times-- > 0)
        bytes[draw(c, (uint32_t)len)] = (uint8_t)draw(c, 66);
}

/* The last record, which is a leaf, becomes a break. */
static void end_with_break(uint8_t *table, size_t table_bytes)
{
    uint8_t *last = table + table_bytes - RECORD_BYTES;
    memset(last, 0, RECORD_BYTES);
    last[0] = BREAK;
    last[2] = 1;
}

static size_t nine_loops(uint8_t *table)
{
    struct line lines[10];
    for (size_t i = 0; i < 9; i++)
        lines[i] = (struct line){LOOP, 0, 0};
    lines[9] = (struct line){AWAIT_INPUT, 1, 0};
    return make_table(table, lines, 10);
}

static void lend_table(struct chance *c, struct lent *l)
{
    uint8_t table[SESSION_TABLE] = {0};
    l->table_bytes = draw_program(c, table, 12) * RECORD_BYTES;
    if (draw(c, 50) == 0)
        l->table_bytes = nine_loops(table);
    if (draw(c, 20) == 0)
        end_with_break(table, l->table_bytes);
    spoil(c, table, l->table_bytes, draw(c, 4));
    if (draw(c, 20) == 0) {
        l->table_bytes = draw(c, 40);
        fill(c, table, l->table_bytes, 256);
    }
    l->table = copy_of(table, l->table_bytes);
}

static void lend_marks(struct chance *c, struct lent *l)
{
    uint8_t marks[SESSION_MARKS] = {0};
    struct program p;
    if (ind_stages_1_to_7(l->table, l->table_bytes, &p).number == 0)
        draw_marks(c, &p, marks);
    l->marks_bytes = l->table_bytes / RECORD_BYTES;
    if (draw(c, 3) == 0)
        fill(c, marks, l->marks_bytes, 2);
    if (draw(c, 10) == 0)
        l->marks_bytes = draw(c, 20);
    if (l->marks_bytes > 0 && draw(c, 10) == 0)
        marks[draw(c, (uint32_t)l->marks_bytes)] = (uint8_t)draw(c, 256);
    l->marks = copy_of(marks, l->marks_bytes);
}

static void lend_rest(struct chance *c, struct lent *l)
{
    uint8_t bytes[FUZZ_EVENTS + FUZZ_OUT * RECORD_BYTES] = {0};
    int32_t variables[VARIABLES + 1] = {0};
    l->events_bytes = draw(c, 8) * RECORD_BYTES;
    for (size_t i = 0; i < l->events_bytes; i += RECORD_BYTES)
        bytes[i] = (uint8_t)(1 + draw(c, 3));
    if (draw(c, 3) == 0)
        spoil(c, bytes, l->events_bytes, 2);
    if (draw(c, 10) == 0)
        l->events_bytes = draw(c, FUZZ_EVENTS);
    l->events = copy_of(bytes, l->events_bytes);
    l->out_bytes = draw(c, FUZZ_OUT * RECORD_BYTES);
    fill(c, bytes, l->out_bytes, 256);
    l->out = copy_of(bytes, l->out_bytes);
    l->variables_count =
        draw(c, 20) == 0 ? VARIABLES - 1 + draw(c, 3) : VARIABLES;
    for (size_t i = 0; i < VARIABLES; i++)
        variables[i] = (int32_t)draw(c, 5) - 2;
    l->variables = copy_of(variables, l->variables_count * sizeof *variables);
    l->totals.reactions = draw(c, 2) == 0 ? UINT64_MAX - 2 : draw(c, 9);
    l->totals.steps = draw(c, 2) == 0 ? UINT64_MAX - 50 : draw(c, 9);
}

static struct lent copy_lent(const struct lent *l)
{
    struct lent copy = *l;
    copy.table = copy_of(l->table, l->table_bytes);
    copy.marks = copy_of(l->marks, l->marks_bytes);
    copy.events = copy_of(l->events, l->events_bytes);
    copy.out = copy_of(l->out, l->out_bytes);
    copy.variables =
        copy_of(l->variables, l->variables_count * sizeof *l->variables);
    return copy;
}

static void give_back(struct lent *l)
{
    free(l->table);
    free(l->marks);
    free(l->events);
    free(l->out);
    free(l->variables);
}

static bool same_lent(const struct lent *a, const struct lent *b)
{
    return memcmp(a->table, b->table, a->table_bytes) == 0 &&
           memcmp(a->marks, b->marks, a->marks_bytes) == 0 &&
           memcmp(a->events, b->events, a->events_bytes) == 0 &&
           memcmp(a->out, b->out, a->out_bytes) == 0 &&
           memcmp(a->variables, b->variables,
                  a->variables_count * sizeof *a->variables) == 0 &&
           a->totals.reactions == b->totals.reactions &&
           a->totals.steps == b->totals.steps;
}

static void expect_outcome(const char *name, struct lent *after,
                           const struct lent *before,
                           struct independent_answer a)
{
    size_t used = (size_t)a.outputs * RECORD_BYTES;
    expect("fuzz: never broken", a.refused != INDEPENDENT_BROKEN);
    if (a.refused != 0 && a.refused != 12) {
        expect_refused(name, a, a.refused, a.place);
        expect("fuzz: a refusal changes nothing", same_lent(after, before));
        return;
    }
    expect("fuzz: bytes behind the outputs stay",
           used <= after->out_bytes &&
               memcmp(after->out + used, before->out + used,
                      after->out_bytes - used) == 0);
    expect("fuzz: the table stays",
           memcmp(after->table, before->table, after->table_bytes) == 0);
}

/* A list of taken events does what its reactions do one by one. */
static void expect_list(const struct lent *before, const struct lent *after,
                        struct independent_answer list)
{
    struct lent l = copy_lent(before);
    size_t taken =
        list.refused == 12 ? list.place : l.events_bytes / RECORD_BYTES;
    size_t used = 0;
    uint64_t steps = 0, emitted = 0;
    uint32_t highest = 0;
    for (size_t i = 0; i < taken; i++) {
        const uint8_t *event = l.events + i * RECORD_BYTES;
        struct independent_answer a = independent_react(
            l.table, l.table_bytes, l.marks, l.marks_bytes, l.variables,
            l.variables_count, event[0], number_at(event + 4), l.out + used,
            l.out_bytes - used, &l.totals);
        used += (size_t)a.outputs * RECORD_BYTES;
        steps += a.steps;
        emitted += a.emitted;
        highest = a.highest > highest ? a.highest : highest;
        expect("fuzz: a list's event is taken alone", a.refused == 0);
    }
    expect("fuzz: a list leaves what its reactions leave",
           same_lent(&l, after));
    expect("fuzz: a list adds up",
           steps == list.steps && emitted == list.emitted &&
               highest == list.highest && used == list.outputs * RECORD_BYTES);
    give_back(&l);
}

static void fuzz_calls(struct chance *c, const struct lent *before)
{
    struct lent l = copy_lent(before);
    uint32_t event = draw(c, 5) == 0 ? draw(c, 66) : 1 + draw(c, 3);
    struct independent_answer a = independent_react(
        l.table, l.table_bytes, l.marks, l.marks_bytes, l.variables,
        l.variables_count, event, -1, l.out, l.out_bytes, &l.totals);
    expect_outcome("fuzz: a refused reaction", &l, before, a);
    give_back(&l);
    l = copy_lent(before);
    a = independent_start(l.table, l.table_bytes, l.marks, l.marks_bytes,
                          l.variables, l.variables_count, l.out, l.out_bytes);
    expect_outcome("fuzz: a refused start", &l, before, a);
    give_back(&l);
    l = copy_lent(before);
    a = independent_run_list(l.table, l.table_bytes, l.marks, l.marks_bytes,
                             l.variables, l.variables_count, l.events,
                             l.events_bytes, l.out, l.out_bytes, &l.totals);
    expect_outcome("fuzz: a refused list", &l, before, a);
    if (a.refused == 0 || a.refused == 12)
        expect_list(before, &l, a);
    give_back(&l);
    l = copy_lent(before);
    independent_query(l.table, l.table_bytes, l.marks, l.marks_bytes);
    expect("fuzz: a query changes nothing", same_lent(&l, before));
    if (independent_remaining(l.table, l.table_bytes, l.marks, l.marks_bytes,
                              l.out, l.out_bytes)
            .refused != 0)
        expect("fuzz: a refused writer changes nothing",
               same_lent(&l, before));
    give_back(&l);
}

void cases_fuzz(uint64_t seed)
{
    const struct independent_coverage *coverage = independent_coverage_read();
    struct chance chance;
    struct lent l;
    char name[40];
    chance.state = seed * UINT64_C(40503) + 7;
    independent_coverage_reset();
    for (int i = 0; i < FUZZ_ROUNDS; i++) {
        lend_table(&chance, &l);
        lend_marks(&chance, &l);
        lend_rest(&chance, &l);
        fuzz_calls(&chance, &l);
        give_back(&l);
    }
    for (int i = 0; i < INDEPENDENT_REFUSALS; i++) {
        snprintf(name, sizeof name, "fuzz: refusal met: %d", i);
        expect(name, coverage->refusals[i] > 0);
    }
}
