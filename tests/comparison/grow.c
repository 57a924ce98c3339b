/* Random programs: of every kind and shape, up to 256 records and 8 loops. */
#include <string.h>

#include "comparison.h"

/* A table that grows, and what stands around its next record. */
struct growth {
    uint8_t *table;
    uint32_t records;
    uint32_t events, names; /* how many different ones the program uses */
    uint32_t loops;
    uint32_t relays; /* so far */
    bool plain;      /* under an every or a fin */
    bool careless;   /* does not mind the stages 4 to 7 */
    bool looping;    /* more loops than otherwise */
    bool busy;       /* many trails that wake each other */
    bool broken;     /* the nearest loop has a break of its own */
};

bool waits(uint32_t kind)
{
    return kind == AWAIT_INPUT || kind == AWAIT_INTERNAL ||
           kind == EVERY_INPUT || kind == EVERY_INTERNAL || kind == FIN;
}

static uint32_t put(struct growth *g, uint32_t kind, uint32_t name,
                    int32_t number)
{
    put_record(g->table, g->records, kind, name, number);
    return g->records++;
}

static void close_span(struct growth *g, uint32_t place)
{
    put_span(g->table, place, g->records - place);
}

static uint32_t some_event(const struct growth *g)
{
    return 1 + draw(g->events);
}

static uint32_t some_name(const struct growth *g)
{
    return 1 + draw(g->names);
}

static int32_t some_variable(const struct growth *g)
{
    return (int32_t)draw(g->names + 1);
}

/* Each grows a construct and says whether it may end at once. */
static bool grow(struct growth *g, uint32_t most);

static bool grow_action(struct growth *g, uint32_t kind)
{
    if (kind == NOTHING)
        put(g, NOTHING, 0, 0);
    else if (kind <= ADD)
        put(g, kind, some_name(g), draw_number());
    else
        put(g, kind, some_name(g), some_variable(g));
    return true;
}

static bool grow_leaf(struct growth *g)
{
    uint32_t kind = draw(g->plain && !g->careless ? 8 : 16);
    if (g->loops > 0 && !g->plain && one_in(6))
        kind = BREAK;
    if (kind <= OUTPUT)
        return grow_action(g, kind);
    if (kind == BREAK && (g->loops > 0 || g->careless)) {
        put(g, BREAK, 0, 0);
        g->broken = true;
        return false;
    }
    if (kind >= BREAK)
        kind = AWAIT_INPUT + kind % 3;
    put(g, kind, some_event(g), 0);
    return kind != AWAIT_INPUT;
}

/* Waits for one internal event and emits the next. */
static bool grow_relay(struct growth *g)
{
    uint32_t place = put(g, SEQUENCE, 0, 0);
    put(g, AWAIT_INTERNAL, 1 + g->relays % g->events, 0);
    g->relays++;
    put(g, EMIT, 1 + g->relays % g->events, 0);
    close_span(g, place);
    return true;
}

/* A trail of awaits, emits and other leaves, one after the other. */
static bool grow_trail(struct growth *g, uint32_t most)
{
    static const uint8_t kinds[] = {AWAIT_INTERNAL, AWAIT_INTERNAL, EMIT,
                                    EMIT,           AWAIT_INPUT,    EMIT};
    uint32_t place = g->records, kind = kinds[draw(sizeof kinds)];
    bool more = most >= 3 && !one_in(5), may_end;
    if (more)
        put(g, SEQUENCE, 0, 0);
    if (one_in(4)) {
        may_end = grow_leaf(g);
    } else {
        put(g, kind, some_event(g), 0);
        may_end = kind != AWAIT_INPUT;
    }
    if (more) {
        may_end = grow_trail(g, most - 2) && may_end;
        close_span(g, place);
    }
    return may_end;
}

/* The left side nests, the right side nests, or either does. */
static bool grow_pair(struct growth *g, uint32_t kind, uint32_t most)
{
    uint32_t name = kind == IF ? draw(g->names + 1) : 0;
    uint32_t place = put(g, kind, name, 0), shape = draw(4);
    uint32_t left = shape == 0   ? most - 2
                    : shape == 1 ? 1
                                 : 1 + draw(most - 2);
    bool a = grow(g, left);
    bool b = grow(g, most - (g->records - place));
    close_span(g, place);
    return kind == IF || kind == OR ? a || b : a && b;
}

/* A sequence with an input await before or behind the body. */
static void grow_guarded(struct growth *g, uint32_t most)
{
    uint32_t place = put(g, SEQUENCE, 0, 0);
    if (one_in(2)) {
        put(g, AWAIT_INPUT, some_event(g), 0);
        grow(g, most - 2);
    } else {
        grow(g, most - 2);
        put(g, AWAIT_INPUT, some_event(g), 0);
    }
    close_span(g, place);
}

/* The body waits for an input event beside a trail that internal events can
 * wake more than once in one reaction. */
static void grow_renewed(struct growth *g, uint32_t most)
{
    uint32_t place = put(g, AND, 0, 0), sequence;
    put(g, AWAIT_INPUT, 1 + draw(2), 0);
    sequence = put(g, SEQUENCE, 0, 0);
    put(g, AWAIT_INTERNAL, 1 + draw(2), 0);
    grow_trail(g, most - 4 < 12 ? most - 4 : 12);
    close_span(g, sequence);
    close_span(g, place);
}

/* The body waits, perhaps in a fin, beside a trail that breaks, at once or
 * later. */
static void grow_race(struct growth *g, uint32_t most)
{
    static const uint8_t waiting[] = {AWAIT_INPUT, AWAIT_INTERNAL, EMIT, SET};
    uint32_t place = put(g, one_in(2) ? OR : AND, 0, 0), sequence;
    bool first = one_in(2), may_end = false;
    if (first)
        may_end = grow(g, most - 4);
    sequence = put(g, SEQUENCE, 0, 0);
    put(g, waiting[draw(sizeof waiting)], some_event(g), 0);
    put(g, BREAK, 0, 0);
    g->broken = true;
    close_span(g, sequence);
    if (!first)
        may_end = grow(g, most - 4);
    if (may_end) /* an or would end with it */
        g->table[place * RECORD_BYTES] = AND;
    close_span(g, place);
}

/* A body that may end at once is taken back and grown anew with a guard. */
static bool grow_loop(struct growth *g, uint32_t most)
{
    uint32_t place = put(g, LOOP, 0, 0), body = g->records;
    bool outside = g->broken, may_end;
    g->broken = false;
    g->loops++;
    if (g->busy && most > 6 && one_in(most > 24 ? 12 : 3)) {
        grow_renewed(g, most - 1);
    } else if (most > 6 && one_in(4)) {
        grow_race(g, most - 1);
    } else if (most >= 4 && one_in(2)) {
        grow_guarded(g, most - 1);
    } else if (grow(g, most - 1) && !g->careless) {
        g->records = body;
        g->broken = false;
        if (most >= 4)
            grow_guarded(g, most - 1);
        else
            put(g, AWAIT_INPUT, some_event(g), 0);
    }
    g->loops--;
    may_end = g->broken;
    g->broken = outside;
    close_span(g, place);
    return may_end;
}

/* An every or a fin, of at most 10 records. */
static bool grow_plain(struct growth *g, uint32_t kind, uint32_t most)
{
    uint32_t place = put(g, kind, kind == FIN ? 0 : some_event(g), 0);
    bool around = g->plain;
    g->plain = true;
    grow(g, 1 + draw(most - 1 < 9 ? most - 1 : 9));
    g->plain = around;
    close_span(g, place);
    return false;
}

/* One side waits for an internal event, the other emits it at some time. */
static bool grow_meeting(struct growth *g, uint32_t most)
{
    uint32_t event = some_event(g), third = (most - 6) / 3, every, sequence;
    uint32_t place = put(g, one_in(3) ? OR : AND, 0, 0);
    bool or = g->table[place * RECORD_BYTES] == OR, a = false, b;
    if (one_in(3)) {
        every = put(g, EVERY_INTERNAL, event, 0);
        g->plain = true;
        grow(g, third < 9 ? third : 9);
        g->plain = false;
        close_span(g, every);
    } else {
        sequence = put(g, SEQUENCE, 0, 0);
        put(g, AWAIT_INTERNAL, event, 0);
        a = grow(g, third);
        close_span(g, sequence);
    }
    sequence = put(g, SEQUENCE, 0, 0);
    b = grow(g, third);
    put(g, EMIT, event, 0);
    close_span(g, sequence);
    close_span(g, place);
    return or ? a || b : a && b;
}

static uint32_t some_kind(const struct growth *g, uint32_t most)
{
    static const uint8_t kinds[] = {SEQUENCE,
                                    SEQUENCE,
                                    SEQUENCE,
                                    SEQUENCE,
                                    IF,
                                    AND,
                                    AND,
                                    AND,
                                    AND,
                                    OR,
                                    OR,
                                    OR,
                                    LOOP,
                                    LOOP,
                                    FIN,
                                    EVERY_INPUT,
                                    EVERY_INTERNAL};
    bool plain = g->plain && !(g->careless && one_in(8));
    if (!plain && g->looping && !one_in(3))
        return LOOP;
    if (!plain && g->busy && most > 12 && !one_in(8))
        return one_in(6) ? OR : AND;
    if (!plain && most > 16 && !one_in(8)) /* one that grows on */
        return kinds[draw(14)];
    return kinds[draw(plain ? 5 : sizeof kinds)];
}

static bool grow(struct growth *g, uint32_t most)
{
    uint32_t kind = some_kind(g, most);
    if (g->busy && !g->plain && most >= 3 && most <= 12 && one_in(2))
        return one_in(2) ? grow_relay(g) : grow_trail(g, most);
    if (most < 3 || one_in(most > 16 ? 100 : 20) ||
        (kind == LOOP && g->loops == MOST_LOOPS && !g->careless))
        return grow_leaf(g);
    if (most >= 11 && !g->plain && one_in(most > 40 ? 30 : 6))
        return grow_meeting(g, most);
    if (kind == LOOP)
        return grow_loop(g, most);
    if (kind == FIN || kind == EVERY_INPUT || kind == EVERY_INTERNAL)
        return grow_plain(g, kind, most);
    return grow_pair(g, kind, most);
}

/* One trail of a crowd, of at most 12 records. */
static void grow_member(struct growth *g)
{
    uint32_t place;
    switch (draw(6)) {
    case 0:
        grow(g, 3 + draw(10));
        break;
    case 1:
        grow_plain(g, EVERY_INTERNAL, 6);
        break;
    case 2: /* a relay that an input event lets begin anew */
        place = put(g, LOOP, 0, 0);
        put(g, AND, 0, 0);
        put(g, AWAIT_INPUT, 1 + draw(2), 0);
        grow_relay(g);
        close_span(g, place + 1);
        close_span(g, place);
        break;
    default:
        grow_relay(g);
        break;
    }
}

/* A row of trails, most of which wake the next one, and behind them one that
 * wakes the first, at the start or by an input event. */
static void grow_crowd(struct growth *g, uint32_t most)
{
    uint32_t place = g->records;
    if (most < 16) {
        if (one_in(2)) {
            put(g, SEQUENCE, 0, 0);
            put(g, AWAIT_INPUT, some_event(g), 0);
        }
        put(g, EMIT, 1, 0);
        close_span(g, place);
        return;
    }
    put(g, one_in(30) ? OR : AND, 0, 0);
    grow_member(g);
    grow_crowd(g, most - (g->records - place));
    close_span(g, place);
}

/* Writes a program of at most so many records; returns how many. A careless
 * one may be refused for 4 to 7, any other is accepted. */
uint32_t grow_program(uint8_t *table, uint32_t most, bool careless)
{
    struct growth g;
    memset(&g, 0, sizeof g);
    g.table = table;
    g.careless = careless;
    g.looping = one_in(6);
    g.busy = one_in(2);
    g.events = g.busy ? 1 + draw(60) : 1 + draw(4);
    g.names = 1 + draw(6);
    if (one_in(8))
        g.events = g.names = LAST_NAME;
    if (one_in(3))
        most = 1 + draw(most);
    if (most >= 16 && g.busy && one_in(3))
        grow_crowd(&g, most);
    else if (most >= 4 && one_in(3))
        grow_loop(&g, most);
    else if (most >= 4 && one_in(2))
        grow_pair(&g, one_in(4) ? OR : AND, most);
    else
        grow(&g, most);
    return g.records;
}
