/* Refusals 1 to 7 with their places, and announced numbers. */
#include <string.h>

#include "cases.h"

/* The kinds have the numbers of the kinds table. */
static void numbers_of_kinds(void)
{
    static const uint32_t kinds[] = {
        NOTHING, SET,      ADD,         COPY,           SUBTRACT,       LESS,
        DIVIDE,  OUTPUT,   AWAIT_INPUT, AWAIT_INTERNAL, EMIT,           BREAK,
        IF,      SEQUENCE, LOOP,        EVERY_INPUT,    EVERY_INTERNAL, AND,
        OR,      FIN,      AT_LOOP,     AT_AND,         AT_OR};
    for (size_t i = 0; i < sizeof kinds / sizeof *kinds; i++)
        expect_number("the number of a kind", kinds[i], (int64_t)i);
}

static void refusal_1(void)
{
    struct session s;
    open_session(&s, LINES({NOTHING, 0, 0}));
    s.table_bytes = 0;
    expect_check_refused("1: length 0", &s, 1, 0);
    s.table_bytes = 7;
    expect_check_refused("1: 7 bytes, not a multiple of 8", &s, 1, 0);
    s.table_bytes = 9;
    expect_check_refused("1: 9 bytes, not a multiple of 8", &s, 1, 0);
    s.table_bytes = 2056;
    expect_check_refused("1: over 2,048 bytes", &s, 1, 0);
    s.table_bytes = 2047;
    expect_check_refused("1: 2,047 bytes", &s, 1, 0);
}

/* A kind and the span that it declares. */
struct shape {
    uint8_t kind;
    uint16_t span;
};

/* Three records of these shapes are refused 2 at the place. */
static void expect_shapes(const char *name, struct shape first,
                          struct shape second, struct shape third,
                          uint32_t place)
{
    const struct shape shapes[3] = {first, second, third};
    struct session s;
    memset(&s, 0, sizeof s);
    s.records = 3;
    s.table_bytes = s.records * RECORD_BYTES;
    for (size_t i = 0; i < s.records; i++) {
        uint8_t *record = s.table + i * RECORD_BYTES;
        record[0] = shapes[i].kind;
        record[2] = (uint8_t)(shapes[i].span & 0xff);
        record[3] = (uint8_t)(shapes[i].span >> 8);
    }
    expect_check_refused(name, &s, 2, place);
}

#define SHAPE(kind, span) ((struct shape){kind, span})

static void refusal_2(void)
{
    struct session s;
    expect_shapes("2: kind 20", SHAPE(SEQUENCE, 3), SHAPE(NOTHING, 1),
                  SHAPE(AT_LOOP, 1), 2);
    expect_shapes("2: kind 255 first", SHAPE(255, 3), SHAPE(NOTHING, 1),
                  SHAPE(AT_LOOP, 1), 0);
    expect_shapes("2: a leaf of span 0", SHAPE(SEQUENCE, 2), SHAPE(NOTHING, 1),
                  SHAPE(NOTHING, 0), 0);
    expect_shapes("2: record 0 not spanning all", SHAPE(LOOP, 2),
                  SHAPE(NOTHING, 1), SHAPE(NOTHING, 1), 0);
    expect_shapes("2: record 0 a leaf before others", SHAPE(NOTHING, 1),
                  SHAPE(NOTHING, 1), SHAPE(NOTHING, 1), 0);
    expect_shapes("2: declared spans decide, so the parent fails",
                  SHAPE(SEQUENCE, 3), SHAPE(NOTHING, 2), SHAPE(NOTHING, 1), 0);
    expect_shapes("2: the second child past the end", SHAPE(SEQUENCE, 3),
                  SHAPE(LOOP, 2), SHAPE(NOTHING, 1), 0);
    expect_shapes("2: a child past the end", SHAPE(LOOP, 3), SHAPE(LOOP, 2),
                  SHAPE(LOOP, 1), 2);
    expect_shapes("2: the lower place first", SHAPE(LOOP, 3), SHAPE(LOOP, 2),
                  SHAPE(AT_LOOP, 5), 1);
    expect_shapes("2: high byte of the span counts", SHAPE(SEQUENCE, 3 + 256),
                  SHAPE(NOTHING, 1), SHAPE(NOTHING, 1), 0);
    open_session(&s, LINES({AT_LOOP, 0, 0}));
    expect_check_refused("2: kind 20 alone, @loop is in no program", &s, 2, 0);
    open_session(&s, LINES({SET, 0, 0}));
    s.table[2] = 2;
    expect_check_refused("2 comes before 3", &s, 2, 0);
}

/* (nothing; the record), with what the record needs below it. */
static void open_record(struct session *s, struct line record)
{
    bool plain = record.kind == EVERY_INPUT || record.kind == EVERY_INTERNAL ||
                 record.kind == FIN;
    struct line lines[5] = {{SEQUENCE, 0, 0},
                            {NOTHING, 0, 0},
                            record,
                            {NOTHING, 0, 0},
                            {NOTHING, 0, 0}};
    if (!plain)
        lines[3] = (struct line){AWAIT_INPUT, 1, 0};
    open_session(s, lines, 3 + children(record.kind));
}

static void expect_3(uint32_t kind, uint32_t name, int32_t number,
                     bool refused)
{
    struct session s;
    open_record(&s, (struct line){kind, name, number});
    if (kind == BREAK) /* a break in range is refused 4 */
        expect_number("3: break", check(&s).refused, refused ? 3 : 4);
    else if (refused)
        expect_check_refused("3: name or number outside the table", &s, 3, 2);
    else
        expect_number("3: name and number inside the table", check(&s).refused,
                      0);
}

static void refusal_3(void)
{
    for (uint32_t kind = 0; kind <= LAST_KIND; kind++) {
        bool v = (kind >= SET && kind <= EMIT) || kind == EVERY_INPUT ||
                 kind == EVERY_INTERNAL;
        bool named = v || kind == IF;
        bool any = kind == SET || kind == ADD;
        bool w = kind >= COPY && kind <= OUTPUT;
        uint32_t name = v ? 1 : 0;
        expect_3(kind, 0, 0, v);
        expect_3(kind, 1, 0, !named);
        expect_3(kind, 63, 0, !named);
        expect_3(kind, 64, 0, true);
        expect_3(kind, 255, 0, true);
        expect_3(kind, name, 1, !any && !w);
        expect_3(kind, name, 63, !any && !w);
        expect_3(kind, name, 64, !any);
        expect_3(kind, name, -1, !any);
        expect_3(kind, name, INT32_MIN, !any);
        expect_3(kind, name, INT32_MAX, !any);
        expect_3(kind, name, 256, !any);
    }
}

static void refusals_4_and_5(void)
{
    struct session s;
    open_session(&s, LINES({SEQUENCE, 0, 0}, {BREAK, 0, 0}, {BREAK, 0, 0}));
    expect_check_refused("4: a break with no loop around it", &s, 4, 1);
    open_session(&s, LINES({SEQUENCE, 0, 0}, {LOOP, 0, 0}, {BREAK, 0, 0},
                           {BREAK, 0, 0}));
    expect_check_refused("4: a break behind a loop", &s, 4, 3);
    open_session(&s, LINES({EVERY_INPUT, 1, 0}, {BREAK, 0, 0}));
    expect_check_refused("4 comes before 5", &s, 4, 1);
    open_session(&s, LINES({LOOP, 0, 0}, {FIN, 0, 0}, {BREAK, 0, 0}));
    expect_check_refused("5: a break under a fin in a loop", &s, 5, 2);
    open_session(&s,
                 LINES({SEQUENCE, 0, 0}, {EVERY_INPUT, 1, 0}, {SEQUENCE, 0, 0},
                       {IF, 1, 0}, {NOTHING, 0, 0}, {AWAIT_INPUT, 1, 0},
                       {EMIT, 1, 0}, {FIN, 0, 0}, {NOTHING, 0, 0}));
    /* sequence, every, sequence, if, nothing, await, emit, fin, nothing */
    expect_check_refused("5: an await under an every, at any depth", &s, 5, 5);
    open_session(&s, LINES({EVERY_INTERNAL, 1, 0}, {EMIT, 1, 0}));
    expect_check_refused("5: an emit under an every", &s, 5, 1);
    open_session(&s, LINES({FIN, 0, 0}, {FIN, 0, 0}, {NOTHING, 0, 0}));
    expect_check_refused("5: a fin under a fin", &s, 5, 1);
    open_session(
        &s, LINES({FIN, 0, 0}, {AND, 0, 0}, {NOTHING, 0, 0}, {NOTHING, 0, 0}));
    expect_check_refused("5: an and under a fin", &s, 5, 1);
    open_session(&s, LINES({FIN, 0, 0}, {LOOP, 0, 0}, {NOTHING, 0, 0}));
    expect_check_refused("5 comes before 7", &s, 5, 1);
    open_session(&s, LINES({SEQUENCE, 0, 0}, {LOOP, 0, 0}, {NOTHING, 0, 0},
                           {FIN, 0, 0}, {AWAIT_INTERNAL, 1, 0}));
    expect_check_refused("5 at a higher place comes before 7", &s, 5, 4);
}

static void refusals_6_and_7(void)
{
    struct line lines[14];
    struct session s;
    for (size_t i = 0; i < 12; i++)
        lines[i] = (struct line){LOOP, 0, 0};
    lines[12] = (struct line){NOTHING, 0, 0};
    open_session(&s, lines, 13);
    expect_check_refused("6: the lowest loop inside eight others, before 7",
                         &s, 6, 8);
    open_session(&s, LINES({SEQUENCE, 0, 0}, {LOOP, 0, 0}, {AWAIT_INPUT, 1, 0},
                           {LOOP, 0, 0}, {AWAIT_INTERNAL, 1, 0}));
    expect_check_refused("7: an internal await is no guard", &s, 7, 3);
    open_session(&s, LINES({LOOP, 0, 0}, {IF, 1, 0}, {AWAIT_INPUT, 1, 0},
                           {NOTHING, 0, 0}));
    expect_check_refused("7: if where either child may", &s, 7, 0);
    open_session(&s, LINES({LOOP, 0, 0}, {SEQUENCE, 0, 0}, {NOTHING, 0, 0},
                           {EMIT, 1, 0}));
    expect_check_refused("7: a sequence where both may", &s, 7, 0);
    open_session(&s, LINES({LOOP, 0, 0}, {SEQUENCE, 0, 0}, {NOTHING, 0, 0},
                           {BREAK, 0, 0}));
    expect_number("7: a break may not end at once", check(&s).refused, 0);
    open_session(&s, LINES({LOOP, 0, 0}, {LOOP, 0, 0}, {AWAIT_INPUT, 1, 0}));
    expect_number("7: a loop with no break of its own may not",
                  check(&s).refused, 0);
    open_session(&s, LINES({LOOP, 0, 0}, {SEQUENCE, 0, 0}, {LOOP, 0, 0},
                           {BREAK, 0, 0}, {AWAIT_INPUT, 1, 0}));
    expect_number("7: a loop that may, then an await", check(&s).refused, 0);
    open_session(
        &s, LINES({LOOP, 0, 0}, {LOOP, 0, 0}, {LOOP, 0, 0}, {BREAK, 0, 0}));
    expect_check_refused("7: the break belongs to the nearest loop", &s, 7, 1);
    open_session(&s,
                 LINES({LOOP, 0, 0}, {OR, 0, 0}, {FIN, 0, 0}, {NOTHING, 0, 0},
                       {EVERY_INPUT, 1, 0}, {NOTHING, 0, 0}));
    expect_number("7: fin and every may not", check(&s).refused, 0);
}

static void announced(void)
{
    struct session s;
    struct independent_checked c;
    /* loop (every 1 (out; out) and (await 1; (emit; (emit; out))));
     * fin out */
    open_session(
        &s, LINES({SEQUENCE, 0, 0}, {LOOP, 0, 0}, {AND, 0, 0},
                  {EVERY_INTERNAL, 1, 0}, {SEQUENCE, 0, 0}, {OUTPUT, 1, 0},
                  {OUTPUT, 1, 0}, {SEQUENCE, 0, 0}, {AWAIT_INPUT, 1, 0},
                  {SEQUENCE, 0, 0}, {EMIT, 1, 0}, {SEQUENCE, 0, 0},
                  {EMIT, 2, 0}, {OUTPUT, 1, 0}, {FIN, 0, 0}, {OUTPUT, 1, 0}));
    c = check(&s);
    expect_number("announced: accepted", c.refused, 0);
    expect_number("announced: X = E(D+1)", c.emitted, 2 * 2);
    expect_number("announced: highest level 1+X", c.highest, 5);
    expect_number("announced: steps 5N(D+1) + (1+X)(N+2)", c.steps,
                  5 * 16 * 2 + 5 * 18);
    expect_number("announced: outputs P(D+1) + Q(1+X), a fin's in P",
                  c.outputs, 2 * 2 + 2 * 5);
}

void cases_check(void)
{
    numbers_of_kinds();
    refusal_1();
    refusal_2();
    refusal_3();
    refusals_4_and_5();
    refusals_6_and_7();
    announced();
}
