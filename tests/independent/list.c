/* A list of events. */
#include "internal.h"

static bool bad_list_record(const uint8_t *bytes)
{
    return bytes[0] == 0 || bytes[0] > LAST_NAME || bytes[1] != 0 ||
           bytes[2] != 0 || bytes[3] != 0;
}

/* 10 for a list: "event 0 or over 63; list over 65,536 bytes, tested first, or
 * no multiple of 8; a list record with bytes 1-3 not zero", place "8192 for a
 * list too long; else the first bad list record, a broken last one
 * included". */
struct refusal ind_list_stage_10(const uint8_t *events, size_t events_bytes)
{
    size_t whole = events_bytes / RECORD_BYTES;
    if (events_bytes > MOST_LIST_BYTES)
        return ind_refuse(10, LIST_TOO_LONG_PLACE);
    for (size_t i = 0; i < whole; i++)
        if (bad_list_record(events + i * RECORD_BYTES))
            return ind_refuse(10, i);
    if (events_bytes % RECORD_BYTES != 0)
        return ind_refuse(10, whole);
    return ind_accepted();
}

/* What a list works on, from event to event. */
struct list {
    const struct program *p;
    uint8_t *marks;
    int32_t *variables;
    struct outputs outputs; /* what is written so far lies before it */
    struct independent_totals *totals;
};

/* "In a list an event is 8 bytes: event, three zeros, value". */
static struct independent_answer take_event(struct list *l,
                                            const uint8_t *bytes)
{
    struct event event = {INPUT_EVENT, 0};
    event.number = bytes[0];
    l->variables[0] = ind_read_number(bytes + 4);
    return ind_run(l->p, ind_tree_at_rest(l->p, l->marks), event, l->marks,
                   l->variables, l->outputs);
}

static void use_room(struct outputs *o, uint64_t written)
{
    if (written > 0)
        o->bytes += written * RECORD_BYTES;
    o->room -= (size_t)written;
}

/* "A list's answer adds up steps, internal events and outputs of the events
 * taken, gives the highest level among them (0 for none)". */
static void add_up(struct independent_answer *sum,
                   const struct independent_answer *one)
{
    sum->steps += one->steps;
    sum->emitted += one->emitted;
    sum->outputs += one->outputs;
    if (one->highest > sum->highest)
        sum->highest = one->highest;
}

/* "Before each event the room left is compared with the announced outputs;
 * where it is less, the answer is 12 and the finished events stand." */
static struct independent_answer take_events(struct list *l,
                                             const uint8_t *events,
                                             size_t count)
{
    struct independent_answer sum = {0, 0, 0, 0, 0, 0, 0}, one;
    uint32_t announced = ind_announced(l->p).outputs;
    for (size_t i = 0; i < count; i++) {
        if (l->outputs.room < announced) {
            sum.refused = 12;
            sum.place = (uint32_t)i;
            break;
        }
        one = take_event(l, events + i * RECORD_BYTES);
        if (one.refused != 0)
            return one;
        use_room(&l->outputs, one.outputs);
        ind_add_to_totals(l->totals, one.steps);
        add_up(&sum, &one);
    }
    /* "and says finished or waiting as the marks then stand" */
    sum.finished = ind_all_zero(l->marks, l->p->count) ? 1 : 0;
    return sum;
}

/* "A list is tested whole before its first event; it has no 11. An empty list
 * succeeds." */
struct independent_answer independent_run_list(
    const uint8_t *table, size_t table_bytes, uint8_t *marks,
    size_t marks_bytes, int32_t *variables, size_t variables_count,
    const uint8_t *events, size_t events_bytes, uint8_t *out, size_t out_bytes,
    struct independent_totals *totals)
{
    struct program p;
    struct list l;
    struct independent_answer a;
    struct refusal r = ind_reaction_stages_1_to_9(
        table, table_bytes, marks, marks_bytes, variables_count, &p);
    if (r.number == 0)
        r = ind_list_stage_10(events, events_bytes);
    if (r.number != 0)
        return ind_refused_answer(r);
    l.p = &p;
    l.marks = marks;
    l.variables = variables;
    l.outputs.bytes = out;
    l.outputs.room = out_bytes / RECORD_BYTES;
    l.outputs.written = 0;
    l.totals = totals;
    a = take_events(&l, events, events_bytes / RECORD_BYTES);
    if (a.refused != INDEPENDENT_BROKEN)
        ind_met_refusal(a.refused);
    return a;
}
