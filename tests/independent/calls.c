/* Start, reaction, query and remaining program. */
#include "internal.h"

/* "A refusal other than 12 ... returns zero counts and `waiting`". */
struct independent_answer ind_refused_answer(struct refusal r)
{
    struct independent_answer a = {0, 0, 0, 0, 0, 0, 0};
    a.refused = ind_met_refusal(r.number);
    a.place = r.place;
    return a;
}

/* 9: "not exactly 64 variables", place 0. */
static struct refusal stage_9(size_t variables_count)
{
    return variables_count == VARIABLES ? ind_accepted() : ind_refuse(9, 0);
}

/* 10 for an event alone: "event 0 or over 63", place 0. */
static struct refusal stage_10(uint32_t event)
{
    return event == 0 || event > LAST_NAME ? ind_refuse(10, 0)
                                           : ind_accepted();
}

/* 11: "output room, in whole records, below the announced outputs", place
 * 0. */
static struct refusal stage_11(const struct program *p, size_t out_bytes)
{
    return out_bytes / RECORD_BYTES < ind_announced(p).outputs
               ? ind_refuse(11, 0)
               : ind_accepted();
}

struct refusal ind_reaction_stages_1_to_9(
    const uint8_t *table, size_t table_bytes, const uint8_t *marks,
    size_t marks_bytes, size_t variables_count, struct program *p)
{
    struct refusal r = ind_stages_1_to_7(table, table_bytes, p);
    if (r.number == 0)
        r = ind_stage_8(p, marks, marks_bytes);
    if (r.number == 0)
        r = stage_9(variables_count);
    return r;
}

/* Takes steps to the end at level 0. False where no rule applies, or where
 * there is no end: document 01 allows neither. */
static bool take_steps(struct description *d, uint64_t *steps)
{
    *steps = 0;
    while (!ind_ended(d)) {
        if (*steps >= STEPS_WITHOUT_END || ind_step(d) == RULE_NONE)
            return false;
        *steps += 1;
    }
    return true;
}

static struct independent_answer broken(void)
{
    return ind_refused_answer(ind_refuse(INDEPENDENT_BROKEN, 0));
}

/* Runs the tree on the event, which is pending at level 0. The tree is used
 * up; the marks are written from the final tree. */
struct independent_answer ind_run(const struct program *p, struct node *tree,
                                  struct event event, uint8_t *marks,
                                  int32_t *variables, struct outputs outputs)
{
    struct description d = {NULL, 0, {NO_EVENT, 0}, NULL, {NULL, 0, 0}, 0, 0};
    struct independent_answer a = {0, 0, 0, 0, 0, 0, 0};
    bool ended;
    d.tree = tree;
    d.pending = event;
    d.variables = variables;
    d.outputs = outputs;
    ended = take_steps(&d, &a.steps);
    if (ended)
        ind_write_marks(p, d.tree, marks);
    ind_free(d.tree);
    if (!ended || d.outputs.written > d.outputs.room)
        return broken();
    a.finished = ind_all_zero(marks, p->count) ? 1 : 0;
    a.highest = d.highest;
    a.emitted = d.emitted;
    a.outputs = d.outputs.written;
    return a;
}

static struct outputs outputs_into(uint8_t *out, size_t out_bytes)
{
    struct outputs o;
    o.bytes = out;
    o.room = out_bytes / RECORD_BYTES;
    o.written = 0;
    return o;
}

static struct event input_event(uint32_t number)
{
    struct event e;
    e.pending = INPUT_EVENT;
    e.number = number;
    return e;
}

/* "The start tests only the length of the marks, and no event." */
static struct refusal refuse_start(const uint8_t *table, size_t table_bytes,
                                   size_t marks_bytes, size_t variables_count,
                                   size_t out_bytes, struct program *p)
{
    struct refusal r = ind_stages_1_to_7(table, table_bytes, p);
    if (r.number == 0)
        r = ind_stage_8_length(p, marks_bytes);
    if (r.number == 0)
        r = stage_9(variables_count);
    if (r.number == 0)
        r = stage_11(p, out_bytes);
    return r;
}

/* "A start puts 0 in variable 0 and pushes event 0, which nobody awaits, on
 * the program itself." */
struct independent_answer independent_start(const uint8_t *table,
                                            size_t table_bytes, uint8_t *marks,
                                            size_t marks_bytes,
                                            int32_t *variables,
                                            size_t variables_count,
                                            uint8_t *out, size_t out_bytes)
{
    struct program p;
    struct refusal r = refuse_start(table, table_bytes, marks_bytes,
                                    variables_count, out_bytes, &p);
    if (r.number != 0)
        return ind_refused_answer(r);
    ind_met_refusal(0);
    variables[0] = 0;
    return ind_run(&p, ind_program_tree(&p, 0), input_event(0), marks,
                   variables, outputs_into(out, out_bytes));
}

static uint64_t stopping_at_the_top(uint64_t a, uint64_t b)
{
    return a > UINT64_MAX - b ? UINT64_MAX : a + b;
}

/* "running totals, lent by the caller and updated by each reaction, holds
 * reactions and steps, 64 bits each, stopping at the largest value" */
void ind_add_to_totals(struct independent_totals *totals, uint64_t steps)
{
    totals->reactions = stopping_at_the_top(totals->reactions, 1);
    totals->steps = stopping_at_the_top(totals->steps, steps);
}

/* "A reaction tests 1 to 11 in that order."  "A reaction puts the value in
 * variable 0 and pushes the event." */
struct independent_answer independent_react(
    const uint8_t *table, size_t table_bytes, uint8_t *marks,
    size_t marks_bytes, int32_t *variables, size_t variables_count,
    uint32_t event, int32_t value, uint8_t *out, size_t out_bytes,
    struct independent_totals *totals)
{
    struct program p;
    struct independent_answer a;
    struct refusal r = ind_reaction_stages_1_to_9(
        table, table_bytes, marks, marks_bytes, variables_count, &p);
    if (r.number == 0)
        r = stage_10(event);
    if (r.number == 0)
        r = stage_11(&p, out_bytes);
    if (r.number != 0)
        return ind_refused_answer(r);
    ind_met_refusal(0);
    variables[0] = value;
    a = ind_run(&p, ind_tree_at_rest(&p, marks), input_event(event), marks,
                variables, outputs_into(out, out_bytes));
    if (a.refused == 0)
        ind_add_to_totals(totals, a.steps);
    return a;
}

static void collect_awaited(const struct node *n, bool *awaited)
{
    switch (n->kind) {
    case AWAIT_INPUT:
    case EVERY_INPUT:
        awaited[n->name] = true;
        return;
    case SEQUENCE:
    case AT_LOOP:
        collect_awaited(n->left, awaited);
        return;
    case AT_AND:
    case AT_OR:
        collect_awaited(n->left, awaited);
        collect_awaited(n->right, awaited);
        return;
    default:
        return;
    }
}

/* "A query gives the number of different input events that now wake some
 * place, and the lowest of them (0 where none)."  It tests 1 to 8. */
struct independent_query independent_query(const uint8_t *table,
                                           size_t table_bytes,
                                           const uint8_t *marks,
                                           size_t marks_bytes)
{
    struct independent_query q = {0, 0, 0, 0};
    bool awaited[LAST_NAME + 1] = {false};
    struct program p;
    struct node *tree;
    struct refusal r = ind_stages_1_to_7(table, table_bytes, &p);
    if (r.number == 0)
        r = ind_stage_8(&p, marks, marks_bytes);
    q.refused = ind_met_refusal(r.number);
    q.place = r.place;
    if (r.number != 0)
        return q;
    tree = ind_tree_at_rest(&p, marks);
    collect_awaited(tree, awaited);
    ind_free(tree);
    for (uint32_t event = LAST_NAME; event >= 1; event--)
        if (awaited[event]) {
            q.number++;
            q.lowest = event;
        }
    return q;
}

/* "Written as records in preorder with new spans: @loop 20, @and 21, @or 22,
 * name and number 0."  Returns the first byte behind. */
static uint8_t *write_records(const struct node *n, uint8_t *bytes)
{
    size_t span;
    if (n == NULL)
        return bytes;
    span = ind_size(n);
    bytes[0] = (uint8_t)n->kind;
    bytes[1] = (uint8_t)n->name;
    bytes[2] = (uint8_t)(span & 0xff);
    bytes[3] = (uint8_t)(span >> 8);
    ind_write_number(bytes + 4, n->number);
    bytes = write_records(n->left, bytes + RECORD_BYTES);
    return write_records(n->right, bytes);
}

/* "Refusals 1 to 8, then 11 where the buffer has too few whole records; the
 * answer counts the records; bytes behind stay." */
struct independent_remaining independent_remaining(
    const uint8_t *table, size_t table_bytes, const uint8_t *marks,
    size_t marks_bytes, uint8_t *out, size_t out_bytes)
{
    struct independent_remaining a = {0, 0, 0};
    struct program p;
    struct node *tree = NULL;
    struct refusal r = ind_stages_1_to_7(table, table_bytes, &p);
    if (r.number == 0)
        r = ind_stage_8(&p, marks, marks_bytes);
    if (r.number == 0) {
        tree = ind_tree_at_rest(&p, marks);
        if (out_bytes / RECORD_BYTES < ind_size(tree))
            r = ind_refuse(11, 0);
    }
    a.refused = ind_met_refusal(r.number);
    a.place = r.place;
    if (r.number == 0) {
        a.records = (uint32_t)ind_size(tree);
        write_records(tree, out);
    }
    ind_free(tree);
    return a;
}
