/* The stages 4 to 7 of the check, and the announced numbers. */
#include "internal.h"

static bool stands_in(const struct program *p, size_t inner, size_t outer)
{
    return outer < inner && inner < outer + p->records[outer].span;
}

static bool is_loop(uint32_t kind)
{
    return kind == LOOP;
}

static bool is_every(uint32_t kind)
{
    return kind == EVERY_INPUT || kind == EVERY_INTERNAL;
}

static bool is_every_or_fin(uint32_t kind)
{
    return is_every(kind) || kind == FIN;
}

/* How many constructs of these kinds stand around a place. */
static uint32_t around(const struct program *p, size_t place,
                       bool (*of_these)(uint32_t kind))
{
    uint32_t found = 0;
    for (size_t outer = 0; outer < place; outer++)
        if (of_these(p->records[outer].kind) && stands_in(p, place, outer))
            found++;
    return found;
}

static uint32_t loops_around(const struct program *p, size_t place)
{
    return around(p, place, is_loop);
}

/* 4: "a break with no loop around it", place the break. */
static struct refusal stage_4(const struct program *p)
{
    for (size_t place = 0; place < p->count; place++)
        if (p->records[place].kind == BREAK && loops_around(p, place) == 0)
            return ind_refuse(4, place);
    return ind_accepted();
}

/* 5: "under an every or a fin, a kind other than 0 to 7, 12, 13", place that
 * record. */
static struct refusal stage_5(const struct program *p)
{
    for (size_t place = 0; place < p->count; place++) {
        uint32_t kind = p->records[place].kind;
        if (kind <= OUTPUT || kind == IF || kind == SEQUENCE)
            continue;
        if (around(p, place, is_every_or_fin) > 0)
            return ind_refuse(5, place);
    }
    return ind_accepted();
}

/* 6: "a loop inside eight others", place that loop. */
static struct refusal stage_6(const struct program *p)
{
    for (size_t place = 0; place < p->count; place++)
        if (p->records[place].kind == LOOP &&
            loops_around(p, place) >= MOST_LOOPS)
            return ind_refuse(6, place);
    return ind_accepted();
}

/* Is this loop the nearest one around the break? */
static bool own_break(const struct program *p, size_t at_break, size_t loop)
{
    if (!stands_in(p, at_break, loop))
        return false;
    for (size_t nearer = loop + 1; nearer < at_break; nearer++)
        if (p->records[nearer].kind == LOOP && stands_in(p, at_break, nearer))
            return false;
    return true;
}

/* "a loop where a break of its own (one with no nearer loop) stands in it" */
static bool has_own_break(const struct program *p, size_t loop)
{
    for (size_t place = loop + 1; place < loop + p->records[loop].span;
         place++)
        if (p->records[place].kind == BREAK && own_break(p, place, loop))
            return true;
    return false;
}

/* "May end at once: kinds 0 to 7, 9, 10 yes; 8, 11, 15, 16, 19 no; if and or
 * where either child may; sequence and and where both may; a loop where a
 * break of its own stands in it." */
static bool may_end_at_once(const struct program *p, size_t place)
{
    switch (p->records[place].kind) {
    case AWAIT_INPUT:
    case BREAK:
    case EVERY_INPUT:
    case EVERY_INTERNAL:
    case FIN:
        return false;
    case IF:
    case OR:
        return may_end_at_once(p, place + 1) ||
               may_end_at_once(p, ind_second_child(p, place));
    case SEQUENCE:
    case AND:
        return may_end_at_once(p, place + 1) &&
               may_end_at_once(p, ind_second_child(p, place));
    case LOOP:
        return has_own_break(p, place);
    default: /* 0 to 7, 9, 10 */
        return true;
    }
}

/* 7: "a loop whose body may end at once", place that loop. */
static struct refusal stage_7(const struct program *p)
{
    for (size_t place = 0; place < p->count; place++)
        if (p->records[place].kind == LOOP && may_end_at_once(p, place + 1))
            return ind_refuse(7, place);
    return ind_accepted();
}

/* "Stages run in this order over the whole table. The first stage that fails
 * decides, with the lowest place that fails it." */
struct refusal ind_stages_1_to_7(const uint8_t *table, size_t table_bytes,
                                 struct program *p)
{
    struct refusal r = ind_stages_1_to_3(table, table_bytes, p);
    if (r.number == 0)
        r = stage_4(p);
    if (r.number == 0)
        r = stage_5(p);
    if (r.number == 0)
        r = stage_6(p);
    if (r.number == 0)
        r = stage_7(p);
    return r;
}

static uint64_t deepest_loop_nesting(const struct program *p)
{
    uint64_t deepest = 0;
    for (size_t place = 0; place < p->count; place++)
        if (p->records[place].kind == LOOP &&
            loops_around(p, place) + 1 > deepest)
            deepest = loops_around(p, place) + 1;
    return deepest;
}

/* "N records, E emits, D deepest loop nesting, P outputs outside and Q inside
 * an every. Internal events at most X = E(D+1); highest level 1+X; steps
 * 5N(D+1) + (1+X)(N+2); outputs P(D+1) + Q(1+X)." */
struct independent_checked ind_announced(const struct program *p)
{
    struct independent_checked a = {0, 0, 0, 0, 0, 0};
    uint64_t n = p->count, d = deepest_loop_nesting(p);
    uint64_t e = 0, outside = 0, inside = 0, x;
    for (size_t place = 0; place < p->count; place++) {
        if (p->records[place].kind == EMIT)
            e++;
        if (p->records[place].kind == OUTPUT) {
            if (around(p, place, is_every) > 0)
                inside++;
            else
                outside++;
        }
    }
    x = e * (d + 1);
    a.emitted = (uint32_t)x;
    a.highest = (uint32_t)(1 + x);
    a.steps = (uint32_t)(5 * n * (d + 1) + (1 + x) * (n + 2));
    a.outputs = (uint32_t)(outside * (d + 1) + inside * (1 + x));
    return a;
}

/* "The check tests 1 to 7 and returns the announced numbers." */
struct independent_checked independent_check(const uint8_t *table,
                                             size_t table_bytes)
{
    struct program p;
    struct independent_checked refused = {0, 0, 0, 0, 0, 0};
    struct refusal r = ind_stages_1_to_7(table, table_bytes, &p);
    ind_met_refusal(r.number);
    if (r.number == 0)
        return ind_announced(&p);
    refused.refused = r.number;
    refused.place = r.place;
    return refused;
}
