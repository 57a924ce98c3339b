/* Random scenarios: a program, and calls that go on from each other. */
#include <string.h>

#include "comparison.h"

/* In preorder; its span is 1. */
void add_record(struct scenario *s, uint32_t kind, uint32_t name,
                int32_t number)
{
    put_record(s->table, s->records++, kind, name, number);
}

struct call *add_call(struct scenario *s, enum call_kind kind)
{
    struct call *c = &s->call[s->calls++];
    memset(c, 0, sizeof *c);
    c->kind = (uint8_t)kind;
    c->event = 1;
    c->list.different = 1;
    c->list.few[0] = 1;
    c->list.odd_at = NEVER;
    return c;
}

/* An event that the program awaits somewhere, more often than not. */
static uint32_t draw_event(const struct scenario *s)
{
    uint32_t place = s->records > 0 ? draw(s->records) : 0;
    if (one_in(6))
        return 1 + draw(LAST_NAME);
    for (uint32_t i = 0; i < s->records; i++) {
        const uint8_t *record =
            s->table + (place + i) % s->records * RECORD_BYTES;
        if ((record[0] == AWAIT_INPUT || record[0] == EVERY_INPUT) &&
            record[1] >= 1 && record[1] <= LAST_NAME)
            return record[1];
    }
    return 1 + draw(4);
}

static void draw_list(const struct scenario *s, struct call *c)
{
    struct list *l = &c->list;
    l->records = draw(13);
    l->different = 1 + draw(MOST_FEW);
    if (s->records <= 12 && one_in(400))
        l->records = MOST_LIST_RECORDS - draw(2);
    for (uint32_t i = 0; i < l->different; i++)
        l->few[i] = draw_event(s) | (uint64_t)(uint32_t)draw_number() << 32;
}

/* Exact, or more; a list's may stop it. */
static void draw_room(const struct scenario *s, struct call *c)
{
    uint32_t announced =
        independent_check(s->table, s->records * RECORD_BYTES).outputs;
    if (one_in(3))
        return;
    c->lengths[OUT].how = one_in(200) ? HUGE_MORE : OFF;
    c->lengths[OUT].off = (int32_t)draw(40);
    if (c->kind == RUN_LIST && one_in(2))
        c->lengths[OUT].off += RECORD_BYTES * (int32_t)draw(4 * announced + 8);
}

static struct call *draw_call(struct scenario *s, enum call_kind kind)
{
    struct call *c = add_call(s, kind);
    c->shift = (uint8_t)draw(8);
    c->fenced = one_in(3);
    c->event = draw_event(s);
    c->value = draw_number();
    draw_room(s, c);
    if (kind == RUN_LIST)
        draw_list(s, c);
    return c;
}

static void draw_first(struct scenario *s, bool accepted)
{
    for (uint32_t i = 0; i < VARIABLES_ROOM; i++)
        s->first.variables[i] = one_in(3) ? draw_number() : (int32_t)draw(3);
    if (accepted && one_in(2))
        fitting_marks(s->table, s->first.marks);
    else if (one_in(2))
        for (uint32_t i = 0; i < MARKS_ROOM; i++)
            s->first.marks[i] = (uint8_t)draw(256);
    for (uint32_t i = 0; i < 2; i++)
        if (one_in(4))
            s->first.totals[i] = UINT64_MAX - draw(i == 0 ? 4 : 60);
        else if (one_in(2))
            s->first.totals[i] = draw(1000);
}

/* One call that changes the state, then what can be asked of it. */
static bool draw_turn(struct scenario *s, bool accepted, bool fresh_marks)
{
    static const uint8_t kinds[] = {REACT,    REACT,    REACT,
                                    RUN_LIST, RUN_LIST, START};
    struct call *c = draw_call(s, kinds[draw(sizeof kinds)]);
    bool spoiled = false;
    if (accepted && (fresh_marks || one_in(4))) {
        c->new_marks = 1;
        fitting_marks(s->table, c->marks);
    }
    if (one_in(5)) {
        damage_call(s, c);
        if (one_in(2))
            damage_call(s, c);
        spoiled = c->new_marks;
    }
    c = draw_call(s, QUERY);
    if (one_in(16))
        damage_call(s, c);
    spoiled |= c->new_marks;
    c = draw_call(s, REMAINING);
    if (one_in(12))
        damage_call(s, c);
    return spoiled | c->new_marks;
}

static uint32_t draw_size(void)
{
    static const uint16_t sizes[] = {3, 5, 8, 12, 20, 40, 80, 160, 256};
    uint32_t i = draw(9);
    if (i >= 6 && one_in(3))
        i = draw(6);
    return sizes[i];
}

void draw_scenario(struct scenario *s, uint64_t seed, uint64_t number)
{
    bool accepted, spoiled = false;
    uint32_t turns;
    memset(s, 0, sizeof *s);
    s->seed = seed;
    s->number = number;
    draw_from(seed, number);
    s->records = grow_program(s->table, draw_size(), one_in(7));
    if (one_in(6))
        damage_table(s);
    accepted =
        independent_check(s->table, s->records * RECORD_BYTES).refused == 0;
    draw_first(s, accepted);
    turns = accepted ? 1 + draw(8) : 1 + draw(2);
    if (one_in(8))
        damage_call(s, draw_call(s, CHECK));
    draw_call(s, CHECK);
    if (!one_in(4)) {
        draw_call(s, START);
        draw_call(s, QUERY);
        draw_call(s, REMAINING);
    }
    for (; turns > 0; turns--)
        spoiled = draw_turn(s, accepted, spoiled);
}
