/* Random programs from a start, and from random fitting marks: the announced
 * numbers are never exceeded, no rule is missing, and the marks written give
 * the final tree again. */
#include <stdio.h>
#include <stdlib.h>
#include <string.h>

#include "cases.h"
#include "generate.h"

enum { PROGRAMS = 2500, BIG_PROGRAMS = 60, ROUNDS = 6, EVENTS = 4 };

/* A random program with buffers of exactly the lengths that are given. */
struct trial {
    struct chance *chance;
    struct program p;
    struct independent_checked announced;
    uint8_t *table, *marks, *out;
    int32_t *variables;
    size_t table_bytes, out_bytes;
    struct independent_totals totals, sum;
};

static void open_trial(struct trial *t, struct chance *chance, size_t most)
{
    uint8_t table[MOST_RECORDS * RECORD_BYTES] = {0};
    size_t records = draw_program(chance, table, most);
    memset(t, 0, sizeof *t);
    t->chance = chance;
    t->table_bytes = records * RECORD_BYTES;
    t->table = room_for(t->table_bytes);
    memcpy(t->table, table, t->table_bytes);
    ind_stages_1_to_7(t->table, t->table_bytes, &t->p);
    t->announced = independent_check(t->table, t->table_bytes);
    t->out_bytes = (size_t)t->announced.outputs * RECORD_BYTES;
    t->marks = room_for(records);
    t->out = room_for(t->out_bytes);
    t->variables = room_for(VARIABLES * sizeof *t->variables);
}

static void close_trial(struct trial *t)
{
    free(t->table);
    free(t->marks);
    free(t->out);
    free(t->variables);
}

/* Steps the tree by hand; the final tree, and the steps taken. */
static struct node *final_tree(struct trial *t, struct node *tree,
                               uint32_t event, int32_t value, uint64_t *steps)
{
    struct description d = {NULL, 0, {INPUT_EVENT, 0}, NULL, {NULL, 0, 0},
                            0,    0};
    int32_t variables[VARIABLES];
    memcpy(variables, t->variables, sizeof variables);
    variables[0] = value;
    d.tree = tree;
    d.pending.number = event;
    d.variables = variables;
    *steps = 0;
    while (!ind_ended(&d)) {
        if (*steps > t->announced.steps || ind_step(&d) == RULE_NONE) {
            expect("random: a rule applies until the end", false);
            break;
        }
        *steps += 1;
    }
    expect("random: the end has a tree @nop or blocked",
           d.tree->kind == NOTHING || ind_blocked(d.tree, 0));
    return d.tree;
}

static void expect_bounds(struct trial *t, struct independent_answer a)
{
    const struct independent_checked *most = &t->announced;
    expect_number("random: not refused", a.refused, 0);
    expect("random: steps within the announced", a.steps <= most->steps);
    expect("random: emitted within the announced", a.emitted <= most->emitted);
    expect("random: level within the announced", a.highest <= most->highest);
    expect("random: outputs within the announced", a.outputs <= most->outputs);
    expect("random: level at least 1", a.highest >= 1);
    expect("random: marks fit afterwards",
           ind_stage_8(&t->p, t->marks, t->p.count).number == 0);
    expect("random: finished as the marks stand",
           a.finished == (ind_all_zero(t->marks, t->p.count) ? 1u : 0u));
}

/* The marks were written; the final tree was stepped by hand. */
static void expect_same_end(struct trial *t, struct node *final,
                            uint64_t steps, struct independent_answer a)
{
    struct node *rest = ind_tree_at_rest(&t->p, t->marks);
    expect("random: the tree at rest is the final tree",
           ind_same_tree(rest, final));
    expect("random: steps counted twice agree", steps == a.steps);
    ind_free(rest);
    ind_free(final);
}

static void random_start(struct trial *t)
{
    uint64_t steps;
    struct independent_answer a;
    struct node *final =
        final_tree(t, ind_program_tree(&t->p, 0), 0, 0, &steps);
    a = independent_start(t->table, t->table_bytes, t->marks, t->p.count,
                          t->variables, VARIABLES, t->out, t->out_bytes);
    expect_bounds(t, a);
    expect_same_end(t, final, steps, a);
}

static void random_reaction(struct trial *t)
{
    uint32_t event = 1 + draw(t->chance, 3);
    int32_t value = (int32_t)draw(t->chance, 5) - 2;
    uint64_t steps;
    struct independent_answer a;
    struct node *final =
        final_tree(t, ind_tree_at_rest(&t->p, t->marks), event, value, &steps);
    a = independent_react(t->table, t->table_bytes, t->marks, t->p.count,
                          t->variables, VARIABLES, event, value, t->out,
                          t->out_bytes, &t->totals);
    expect_bounds(t, a);
    expect_same_end(t, final, steps, a);
    t->sum.reactions++;
    t->sum.steps += a.steps;
    expect("random: totals add up", t->sum.reactions == t->totals.reactions &&
                                        t->sum.steps == t->totals.steps);
}

/* Query and remaining program of the marks as they stand. */
static void random_looks(struct trial *t)
{
    struct independent_query q =
        independent_query(t->table, t->table_bytes, t->marks, t->p.count);
    struct node *rest = ind_tree_at_rest(&t->p, t->marks);
    size_t size = ind_size(rest) * RECORD_BYTES;
    uint8_t *out = room_for(size);
    struct independent_remaining r = independent_remaining(
        t->table, t->table_bytes, t->marks, t->p.count, out, size);
    expect("random: a query is not refused", q.refused == 0);
    expect("random: the lowest event is 0 where none",
           (q.number == 0) == (q.lowest == 0));
    expect("random: the remaining program has its size",
           r.refused == 0 && r.records * RECORD_BYTES == size);
    expect("random: its first span is its size",
           out[2] + 256u * out[3] == r.records);
    ind_free(rest);
    free(out);
}

static void random_trial(struct chance *chance, size_t most)
{
    struct trial t;
    open_trial(&t, chance, most);
    for (int round = 0; round < ROUNDS; round++) {
        if (round % 2 == 0)
            random_start(&t);
        else
            draw_marks(chance, &t.p, t.marks);
        for (int event = 0; event < EVENTS; event++) {
            random_looks(&t);
            random_reaction(&t);
        }
    }
    close_trial(&t);
}

static void expect_all_met(void)
{
    const struct independent_coverage *c = independent_coverage_read();
    char name[120];
    for (int i = RULE_PUSH; i < INDEPENDENT_RULES; i++) {
        snprintf(name, sizeof name, "random: rule met: %s",
                 independent_rule_name((enum independent_rule)i));
        expect(name, c->rules[i] > 0);
    }
    for (int i = 0; i < INDEPENDENT_KINDS; i++) {
        snprintf(name, sizeof name, "random: kind met: %d", i);
        expect(name, c->kinds[i] > 0);
    }
    expect("random: no rule missing", c->rules[RULE_NONE] == 0);
}

void cases_random(uint64_t seed)
{
    struct chance chance;
    chance.state = seed * UINT64_C(2654435769) + 1;
    independent_coverage_reset();
    for (int i = 0; i < PROGRAMS; i++)
        random_trial(&chance, 4 + (size_t)i % 30);
    for (int i = 0; i < BIG_PROGRAMS; i++)
        random_trial(&chance, 250);
    expect_all_met();
}
