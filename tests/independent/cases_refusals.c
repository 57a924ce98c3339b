/* Refusals 8 to 11 with their places, in a start, a reaction, a query. */
#include <string.h>

#include "cases.h"

/* ((await 1 or await 2); (if v1 (await 3) (every 4 nothing)));
 * (await internal 5 and fin nothing) */
static void open_marks(struct session *s)
{
    open_session(s, LINES({SEQUENCE, 0, 0}, {SEQUENCE, 0, 0}, {OR, 0, 0},
                          {AWAIT_INPUT, 1, 0}, {AWAIT_INPUT, 2, 0}, {IF, 1, 0},
                          {AWAIT_INPUT, 3, 0}, {EVERY_INPUT, 4, 0},
                          {NOTHING, 0, 0}, {AND, 0, 0}, {AWAIT_INTERNAL, 5, 0},
                          {FIN, 0, 0}, {NOTHING, 0, 0}));
}

static void expect_8(const char *name, const char *marks, uint32_t number,
                     uint32_t place)
{
    struct session s, before;
    struct independent_query q;
    struct independent_remaining r;
    struct independent_answer a;
    open_marks(&s);
    for (size_t i = 0; i < s.records; i++)
        s.marks[i] = (uint8_t)(marks[i] - '0');
    before = s;
    q = independent_query(s.table, s.table_bytes, s.marks, s.records);
    expect_number(name, q.refused, number);
    expect_number(name, q.place, place);
    r = independent_remaining(s.table, s.table_bytes, s.marks, s.records,
                              s.out, sizeof s.out);
    expect_number(name, r.refused, number);
    expect_number(name, r.place, place);
    if (number == 0)
        return;
    expect(name, q.number == 0 && q.lowest == 0 && r.records == 0);
    expect_refused(name, react(&s, 1, 1), number, place);
    a = run_list(&s, s.table, 3, sizeof s.out);
    expect_refused(name, a, number, place);
    expect(name, memcmp(&before, &s, sizeof s) == 0);
}

static void refusal_8(void)
{
    expect_8("8: all zero fits", "0000000000000", 0, 0);
    expect_8("8: marks on both sides of an or", "0001100000000", 0, 0);
    expect_8("8: marks on one side of an and", "0000000000100", 0, 0);
    expect_8("8: marks on both sides of an and", "0000000000110", 0, 0);
    expect_8("8: a byte over 1", "0002100000000", 8, 3);
    expect_8("8: a 1 on a kind that cannot wait", "0001100000001", 8, 12);
    expect_8("8: a byte before fitting", "0001000000001", 8, 12);
    expect_8("8: the lowest such byte", "0001010200001", 8, 5);
    expect_8("8: an or marked on its left only", "0001000000000", 8, 2);
    expect_8("8: an or marked on its right only", "0000100000000", 8, 2);
    expect_8("8: a sequence marked on both sides", "0001100000100", 8, 0);
    expect_8("8: an inner sequence marked on both sides", "0001101000000", 8,
             1);
    expect_8("8: an if marked on both sides", "0000001100000", 8, 5);
    expect_8("8: the lowest construct that fails", "0001001100010", 8, 0);
    expect_8("8: the if alone", "0000001000000", 0, 0);
}

static void refusal_8_length(void)
{
    struct session s, before;
    open_marks(&s);
    s.records++;
    before = s;
    expect_refused("8: one mark too many, in a start", start(&s), 8, 0);
    expect_refused("8: one mark too many", react(&s, 1, 1), 8, 0);
    s.records -= 2;
    expect_refused("8: one mark too few, in a start", start(&s), 8, 0);
    expect_refused("8: one mark too few", react(&s, 1, 1), 8, 0);
    s.marks[3] = 2;
    expect_refused("8: the length comes before the bytes", react(&s, 1, 1), 8,
                   0);
    expect_number(
        "8: a query tests the length",
        independent_query(s.table, s.table_bytes, s.marks, 0).refused, 8);
    s.marks[3] = 0;
    s.records++;
    expect("8: nothing changed",
           memcmp(&before.marks, &s.marks,
                  sizeof s - offsetof(struct session, marks)) == 0);
    memset(s.marks, 7, s.records);
    expect_answer("a start reads no mark and writes every one", start(&s), 5,
                  0, 1, 0, false);
    expect("a start leaves bytes behind the marks", s.marks[s.records] == 0);
}

static struct independent_answer react_lengths(struct session *s,
                                               size_t variables_count,
                                               uint32_t event,
                                               size_t out_bytes)
{
    return independent_react(s->table, s->table_bytes, s->marks, s->records,
                             s->variables, variables_count, event, 5, s->out,
                             out_bytes, &s->totals);
}

static void refusals_9_to_11(void)
{
    struct session s, before;
    open_echo(&s);
    start(&s);
    before = s;
    expect_refused("9: 63 variables", react_lengths(&s, 63, 0, 0), 9, 0);
    expect_refused("9: 65 variables", react_lengths(&s, 65, 1, 16), 9, 0);
    expect_refused("9: no variables", react_lengths(&s, 0, 1, 16), 9, 0);
    expect_refused("10: event 0", react_lengths(&s, 64, 0, 0), 10, 0);
    expect_refused("10: event 64", react_lengths(&s, 64, 64, 16), 10, 0);
    expect_refused("10: event 257 is not event 1",
                   react_lengths(&s, 64, 257, 16), 10, 0);
    expect_refused("10: the largest number",
                   react_lengths(&s, 64, UINT32_MAX, 16), 10, 0);
    expect_refused("11: room for one output of two",
                   react_lengths(&s, 64, 1, 8), 11, 0);
    expect_refused("11: whole records only", react_lengths(&s, 64, 1, 15), 11,
                   0);
    expect("9 to 11: nothing changed", memcmp(&before, &s, sizeof s) == 0);
    expect_answer("11: room for the announced outputs",
                  react_lengths(&s, 64, 1, 16), 6, 0, 1, 1, false);
    expect_answer("10: event 63 is taken", react_lengths(&s, 64, 63, 16), 2, 0,
                  1, 0, false);
}

static void refusals_of_a_start(void)
{
    struct session s, before;
    open_session(&s, LINES({OUTPUT, 1, 0}));
    before = s;
    expect_refused(
        "9: a start with 63 variables",
        independent_start(s.table, 8, s.marks, 1, s.variables, 63, s.out, 0),
        9, 0);
    expect_refused(
        "11: a start without room",
        independent_start(s.table, 8, s.marks, 1, s.variables, 64, s.out, 7),
        11, 0);
    expect_refused(
        "8: a start tests the marks before 9 and 11",
        independent_start(s.table, 8, s.marks, 0, s.variables, 63, s.out, 7),
        8, 0);
    expect("a refused start changes nothing",
           memcmp(&before, &s, sizeof s) == 0);
    s.variables[0] = 77;
    s.variables[5] = 78;
    expect_answer("a start puts 0 in variable 0", start(&s), 3, 0, 1, 1, true);
    expect_output("the output of a start", &s, 0, 1, 0);
    expect_number("a start leaves the other variables", s.variables[5], 78);
    expect_number("a start isn't counted in the totals",
                  (int64_t)s.totals.reactions, 0);
}

void cases_refusals(void)
{
    refusal_8();
    refusal_8_length();
    refusals_9_to_11();
    refusals_of_a_start();
}
