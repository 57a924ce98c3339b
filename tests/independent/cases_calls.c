/* Query, remaining program and running totals. */
#include <string.h>

#include "cases.h"

static struct independent_query query(const struct session *s)
{
    return independent_query(s->table, s->table_bytes, s->marks, s->records);
}

static void expect_query(const char *name, const struct session *s,
                         uint32_t number, uint32_t lowest)
{
    struct independent_query q = query(s);
    expect_number(name, q.refused, 0);
    expect_number(name, q.place, 0);
    expect_number(name, q.number, number);
    expect_number(name, q.lowest, lowest);
}

static void queries(void)
{
    struct session s;
    /* ((await 63; await 2) and every 5 nothing) and
     * ((await 63 and await internal 1) and fin nothing) */
    open_session(
        &s,
        LINES({AND, 0, 0}, {AND, 0, 0}, {SEQUENCE, 0, 0}, {AWAIT_INPUT, 63, 0},
              {AWAIT_INPUT, 2, 0}, {EVERY_INPUT, 5, 0}, {NOTHING, 0, 0},
              {AND, 0, 0}, {AND, 0, 0}, {AWAIT_INPUT, 63, 0},
              {AWAIT_INTERNAL, 1, 0}, {FIN, 0, 0}, {NOTHING, 0, 0}));
    expect_query("a query of a finished program: none", &s, 0, 0);
    start(&s);
    expect_query("a query counts different input events only", &s, 2, 5);
    react(&s, 63, 0);
    expect_query("a query after an event: await 2 and every 5", &s, 2, 2);
    react(&s, 2, 0);
    expect_query("an every is woken again and again", &s, 1, 5);
    open_session(&s, LINES({AWAIT_INTERNAL, 1, 0}));
    start(&s);
    expect_query("an internal await is woken by no input", &s, 0, 0);
    open_session(&s, LINES({AWAIT_INPUT, 63, 0}));
    start(&s);
    expect_query("the largest event", &s, 1, 63);
    s.table[1] = 64;
    expect_number("a query tests the table", query(&s).refused, 3);
}

static struct independent_remaining remaining(struct session *s,
                                              size_t out_bytes)
{
    memset(s->out, 0xee, sizeof s->out);
    return independent_remaining(s->table, s->table_bytes, s->marks,
                                 s->records, s->out, out_bytes);
}

/* want holds kind, name, span, number for each record. */
static void expect_remaining(const char *name, struct session *s,
                             const int32_t (*want)[4], size_t count)
{
    struct independent_remaining r = remaining(s, count * RECORD_BYTES + 7);
    expect_number(name, r.refused, 0);
    expect_number(name, r.place, 0);
    expect_number(name, r.records, (int64_t)count);
    for (size_t i = 0; i < count; i++) {
        const uint8_t *bytes = s->out + i * RECORD_BYTES;
        expect_number(name, bytes[0], want[i][0]);
        expect_number(name, bytes[1], want[i][1]);
        expect_number(name, bytes[2] + 256 * bytes[3], want[i][2]);
        expect_number(name, number_at(bytes + 4), want[i][3]);
    }
    expect("remaining program: bytes behind stay",
           s->out[count * RECORD_BYTES] == 0xee);
    r = remaining(s, count * RECORD_BYTES - 1);
    expect_number("remaining program: 11 for too few whole records", r.refused,
                  11);
    expect("remaining program: 11 at place 0, no records",
           r.place == 0 && r.records == 0);
    expect("remaining program: a refusal writes nothing", s->out[0] == 0xee);
}

static void remaining_of_constructs(void)
{
    static const int32_t echo[7][4] = {
        {AT_LOOP, 0, 7, 0}, {SEQUENCE, 0, 3, 0}, {AWAIT_INPUT, 1, 1, 0},
        {OUTPUT, 9, 1, 3},  {SEQUENCE, 0, 3, 0}, {AWAIT_INPUT, 1, 1, 0},
        {OUTPUT, 9, 1, 3}};
    static const int32_t either[4][4] = {{AT_OR, 0, 4, 0},
                                         {FIN, 0, 2, 0},
                                         {SET, 3, 1, -5},
                                         {AWAIT_INPUT, 1, 1, 0}};
    static const int32_t done[1][4] = {{NOTHING, 0, 1, 0}};
    struct session s;
    open_session(&s, LINES({LOOP, 0, 0}, {SEQUENCE, 0, 0}, {AWAIT_INPUT, 1, 0},
                           {OUTPUT, 9, 3}));
    expect_remaining("remaining program: no marks is one @nop", &s, done, 1);
    start(&s);
    expect_remaining("remaining program: @loop is 20", &s, echo, 7);
    open_session(
        &s, LINES({OR, 0, 0}, {FIN, 0, 0}, {SET, 3, -5}, {AWAIT_INPUT, 1, 0}));
    start(&s);
    expect_remaining("remaining program: @or is 22", &s, either, 4);
    react(&s, 1, 0);
    expect_remaining("remaining program: finished is one @nop", &s, done, 1);
}

static void remaining_of_sides(void)
{
    static const int32_t both[6][4] = {
        {AT_AND, 0, 6, 0},  {SEQUENCE, 0, 3, 0},    {AWAIT_INPUT, 1, 1, 0},
        {NOTHING, 0, 1, 0}, {EVERY_INPUT, 2, 2, 0}, {OUTPUT, 1, 1, 63}};
    static const int32_t right[2][4] = {{EVERY_INPUT, 2, 2, 0},
                                        {OUTPUT, 1, 1, 63}};
    static const int32_t branch[1][4] = {{AWAIT_INPUT, 7, 1, 0}};
    struct session s;
    open_session(&s,
                 LINES({AND, 0, 0}, {SEQUENCE, 0, 0}, {AWAIT_INPUT, 1, 0},
                       {NOTHING, 0, 0}, {EVERY_INPUT, 2, 0}, {OUTPUT, 1, 63}));
    start(&s);
    expect_remaining("remaining program: @and is 21", &s, both, 6);
    react(&s, 1, 0);
    expect_remaining("remaining program: one side of an and", &s, right, 2);
    open_session(&s, LINES({SEQUENCE, 0, 0}, {AWAIT_INPUT, 1, 0}, {IF, 0, 0},
                           {AWAIT_INPUT, 7, 0}, {AWAIT_INPUT, 8, 0}));
    s.marks[3] = 1;
    expect_remaining("remaining program: right of a sequence, left of an if",
                     &s, branch, 1);
}

/* loop (await 1; 70 outputs) waits with 283 records, more than a program may
 * have. */
static void long_remaining(void)
{
    struct line lines[142] = {
        {LOOP, 0, 0}, {SEQUENCE, 0, 0}, {AWAIT_INPUT, 1, 0}};
    uint8_t out[283 * RECORD_BYTES];
    struct session s;
    struct independent_remaining r;
    size_t at = 3;
    for (size_t i = 0; i < 70; i++) {
        if (i < 69)
            lines[at++] = (struct line){SEQUENCE, 0, 0};
        lines[at++] = (struct line){OUTPUT, 1, 0};
    }
    open_session(&s, lines, at);
    s.marks[2] = 1;
    r = independent_remaining(s.table, s.table_bytes, s.marks, s.records, out,
                              sizeof out);
    expect_number("remaining program: more than 256 records", r.records, 283);
    expect_number("remaining program: a span of two bytes",
                  out[2] + 256 * out[3], 283);
}

static void totals(void)
{
    struct session s;
    open_echo(&s);
    start(&s);
    react(&s, 1, 0);
    react(&s, 2, 0);
    expect_number("totals: reactions", (int64_t)s.totals.reactions, 2);
    expect_number("totals: steps", (int64_t)s.totals.steps, 8);
    s.totals.reactions = UINT64_MAX - 1;
    s.totals.steps = UINT64_MAX - 6;
    react(&s, 1, 0);
    expect("totals reach the largest value",
           s.totals.reactions == UINT64_MAX && s.totals.steps == UINT64_MAX);
    react(&s, 1, 0);
    expect("totals stop at the largest value",
           s.totals.reactions == UINT64_MAX && s.totals.steps == UINT64_MAX);
    s.totals.steps = UINT64_MAX - 5;
    react(&s, 1, 0);
    expect("totals stop where the sum would pass",
           s.totals.steps == UINT64_MAX);
}

void cases_calls(void)
{
    queries();
    remaining_of_constructs();
    remaining_of_sides();
    long_remaining();
    totals();
}
