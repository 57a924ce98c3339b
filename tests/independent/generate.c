/* Random programs and random fitting marks. */
#include <string.h>

#include "cases.h"
#include "generate.h"

uint32_t draw(struct chance *c, uint32_t below)
{
    c->state ^= c->state << 13;
    c->state ^= c->state >> 7;
    c->state ^= c->state << 17;
    return (uint32_t)((c->state >> 20) % below);
}

/* Where the next construct stands. */
struct around {
    uint32_t loops;
    bool plain; /* under an every or a fin */
};

struct growing {
    struct chance *chance;
    struct line lines[MOST_RECORDS];
    size_t count;
};

static void add(struct growing *g, uint32_t kind, uint32_t name,
                int32_t number)
{
    g->lines[g->count++] = (struct line){kind, name, number};
}

static uint32_t draw_event(struct chance *c)
{
    return 1 + draw(c, 3);
}

static int32_t draw_number(struct chance *c)
{
    static const int32_t numbers[] = {0, 1, -1, 2, -2, INT32_MAX, INT32_MIN};
    return numbers[draw(c, sizeof numbers / sizeof *numbers)];
}

static void add_action(struct growing *g)
{
    uint32_t kind = draw(g->chance, 8), name = 1 + draw(g->chance, 4);
    if (kind == NOTHING)
        add(g, NOTHING, 0, 0);
    else if (kind <= ADD)
        add(g, kind, name, draw_number(g->chance));
    else
        add(g, kind, name, (int32_t)draw(g->chance, 5));
}

static void add_leaf(struct growing *g, struct around a)
{
    static const uint32_t kinds[] = {AWAIT_INPUT, AWAIT_INTERNAL, EMIT, BREAK};
    uint32_t choice = draw(g->chance, 6);
    if (a.plain || choice >= 4)
        add_action(g);
    else if (kinds[choice] != BREAK)
        add(g, kinds[choice], draw_event(g->chance), 0);
    else if (a.loops > 0 && draw(g->chance, 2) == 0)
        add(g, BREAK, 0, 0);
    else
        add(g, AWAIT_INPUT, draw_event(g->chance), 0);
}

static void add_construct(struct growing *g, size_t most, struct around a);

static void add_pair(struct growing *g, uint32_t kind, size_t most,
                     struct around a)
{
    size_t left = 1 + draw(g->chance, (uint32_t)(most - 2));
    size_t before;
    add(g, kind, kind == IF ? draw(g->chance, 5) : 0, 0);
    before = g->count;
    add_construct(g, left, a);
    add_construct(g, most - 1 - (g->count - before), a);
}

static void add_break(struct growing *g)
{
    add(g, SEQUENCE, 0, 0);
    add(g, draw(g->chance, 3) == 0 ? AWAIT_INTERNAL : AWAIT_INPUT,
        draw_event(g->chance), 0);
    add(g, BREAK, 0, 0);
}

/* The body of a loop: one side breaks at some time, the other does not. */
static void add_race(struct growing *g, size_t most, struct around a)
{
    add(g, draw(g->chance, 2) == 0 ? OR : AND, 0, 0);
    if (draw(g->chance, 2) == 0) {
        add_break(g);
        add_construct(g, most - 4, a);
    } else {
        add_construct(g, most - 4, a);
        add_break(g);
    }
}

static void add_loop(struct growing *g, size_t most, struct around a)
{
    add(g, LOOP, 0, 0);
    a.loops++;
    if (most >= 6 && draw(g->chance, 4) == 0) {
        add_race(g, most - 1, a);
        return;
    }
    if (most < 5 || draw(g->chance, 3) == 0) {
        add_construct(g, most - 1, a);
        return;
    }
    add(g, SEQUENCE, 0, 0); /* a guard before or behind the body */
    if (draw(g->chance, 2) == 0) {
        add(g, AWAIT_INPUT, draw_event(g->chance), 0);
        add_construct(g, most - 3, a);
    } else {
        add_construct(g, most - 3, a);
        add(g, AWAIT_INPUT, draw_event(g->chance), 0);
    }
}

/* An every or a fin, of at most 8 records. */
static void add_plain_named(struct growing *g, uint32_t kind, uint32_t name,
                            size_t most, struct around a)
{
    add(g, kind, name, 0);
    a.plain = true;
    add_construct(g, 1 + draw(g->chance, most < 8 ? (uint32_t)most - 1 : 7),
                  a);
}

static void add_plain(struct growing *g, uint32_t kind, size_t most,
                      struct around a)
{
    add_plain_named(g, kind, kind == FIN ? 0 : draw_event(g->chance), most, a);
}

/* One side waits for an internal event, the other emits it at some time. */
static void add_meeting(struct growing *g, size_t most, struct around a)
{
    uint32_t event = draw_event(g->chance);
    size_t third = (most - 5) / 3;
    add(g, draw(g->chance, 3) == 0 ? OR : AND, 0, 0);
    add(g, SEQUENCE, 0, 0);
    if (draw(g->chance, 3) == 0)
        add_plain_named(g, EVERY_INTERNAL, event, third, a);
    else
        add(g, AWAIT_INTERNAL, event, 0);
    add_construct(g, third, a);
    add(g, SEQUENCE, 0, 0);
    add_construct(g, third, a);
    add(g, EMIT, event, 0);
}

/* Adds a construct of at most so many records. */
static void add_construct(struct growing *g, size_t most, struct around a)
{
    static const uint32_t kinds[] = {
        SEQUENCE, SEQUENCE, SEQUENCE, IF,   AND,         AND, AND,
        OR,       OR,       LOOP,     LOOP, EVERY_INPUT, FIN, EVERY_INTERNAL};
    uint32_t kind = kinds[draw(g->chance, sizeof kinds / sizeof *kinds)];
    if (a.plain && kind != SEQUENCE)
        kind = IF;
    if (most < 3 || draw(g->chance, 12) == 0 ||
        (kind == LOOP && a.loops == MOST_LOOPS))
        add_leaf(g, a);
    else if (most >= 11 && !a.plain && draw(g->chance, 5) == 0)
        add_meeting(g, most, a);
    else if (kind == LOOP)
        add_loop(g, most, a);
    else if (kind == EVERY_INPUT || kind == EVERY_INTERNAL || kind == FIN)
        add_plain(g, kind, most, a);
    else
        add_pair(g, kind, most, a);
}

size_t draw_program(struct chance *c, uint8_t *table, size_t most_records)
{
    struct around outside = {0, false};
    struct growing g;
    do {
        g.chance = c;
        g.count = 0;
        add_construct(&g, 1 + draw(c, (uint32_t)most_records), outside);
        make_table(table, g.lines, g.count);
    } while (independent_check(table, g.count * RECORD_BYTES).refused != 0);
    return g.count;
}

static bool can_be_marked(const struct program *p, size_t place)
{
    size_t left = place + 1;
    switch (p->records[place].kind) {
    case AWAIT_INPUT:
    case AWAIT_INTERNAL:
    case EVERY_INPUT:
    case EVERY_INTERNAL:
    case FIN:
        return true;
    case LOOP:
        return can_be_marked(p, left);
    case OR:
        return can_be_marked(p, left) &&
               can_be_marked(p, ind_second_child(p, place));
    case SEQUENCE:
    case IF:
    case AND:
        return can_be_marked(p, left) ||
               can_be_marked(p, ind_second_child(p, place));
    default:
        return false;
    }
}

/* Marks some place below; it can be marked. */
static void mark(struct chance *c, const struct program *p, uint8_t *marks,
                 size_t place)
{
    size_t left = place + 1, right;
    uint32_t kind = p->records[place].kind;
    bool go_left, go_right;
    if (kind == LOOP) {
        mark(c, p, marks, left);
        return;
    }
    if (ind_children(kind) != 2) {
        marks[place] = 1;
        return;
    }
    right = ind_second_child(p, place);
    go_left = can_be_marked(p, left);
    go_right = can_be_marked(p, right);
    if (go_left && go_right && kind != OR &&
        (kind != AND || draw(c, 4) == 0)) {
        go_left = draw(c, 2) == 0;
        go_right = !go_left;
    }
    if (go_left)
        mark(c, p, marks, left);
    if (go_right)
        mark(c, p, marks, right);
}

void draw_marks(struct chance *c, const struct program *p, uint8_t *marks)
{
    memset(marks, 0, p->count);
    if (can_be_marked(p, 0) && draw(c, 20) != 0)
        mark(c, p, marks, 0);
}
