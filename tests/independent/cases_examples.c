/* The examples 1 to 13 of document 01, every number it gives. */
#include <string.h>

#include "cases.h"

static void examples_1_to_3(void)
{
    struct session s;
    open_session(&s, LINES({NOTHING, 0, 0}));
    expect_answer("example 1: nothing takes 2 steps, finished", start(&s), 2,
                  0, 1, 0, true);
    open_session(&s, LINES({SET, 1, 5}));
    expect_answer("example 2: v1 := 5 takes 3 steps", start(&s), 3, 0, 1, 0,
                  true);
    expect_number("example 2: v1 is 5", s.variables[1], 5);
    open_session(&s, LINES({AWAIT_INPUT, 1, 0}));
    expect_number("example 3: announced steps 8", check(&s).steps, 8);
    expect_answer("example 3: await 1 takes 2 steps", start(&s), 2, 0, 1, 0,
                  false);
    expect_answer("example 3: event 2 takes 2 steps, still waiting",
                  react(&s, 2, 0), 2, 0, 1, 0, false);
    expect_answer("example 3: event 1 takes 2 steps, finished",
                  react(&s, 1, 0), 2, 0, 1, 0, true);
}

static void example_4(void)
{
    struct session s;
    struct independent_checked c;
    open_session(&s,
                 LINES({AND, 0, 0}, {SEQUENCE, 0, 0}, {AWAIT_INTERNAL, 1, 0},
                       {OUTPUT, 1, 1}, {SEQUENCE, 0, 0}, {SET, 1, 7},
                       {SEQUENCE, 0, 0}, {EMIT, 1, 0}, {SET, 1, 9}));
    c = check(&s);
    expect_number("example 4: announced 67", c.steps, 67);
    expect_number("example 4: announced internal events 1", c.emitted, 1);
    expect_number("example 4: announced level 2", c.highest, 2);
    expect_number("example 4: announced outputs 1", c.outputs, 1);
    expect_answer("example 4: 16 steps, highest level 2", start(&s), 16, 1, 2,
                  1, true);
    expect_output("example 4: output 7", &s, 0, 1, 7);
    expect_number("example 4: v1 = 9", s.variables[1], 9);
}

static void example_5(void)
{
    struct session s;
    open_echo(&s);
    expect_number("example 5: announced steps 46", check(&s).steps, 46);
    expect_number("example 5: announced outputs 2", check(&s).outputs, 2);
    expect_answer("example 5: start takes 3 steps", start(&s), 3, 0, 1, 0,
                  false);
    expect_answer("example 5: event 1 takes 6 steps", react(&s, 1, -3), 6, 0,
                  1, 1, false);
    expect_output("example 5: output of v0", &s, 0, 1, -3);
    expect("example 5: bytes after the outputs stay",
           s.out[8] == 0xee && s.out[SESSION_OUT - 1] == 0xee);
}

static void example_6(void)
{
    static const uint8_t marks[4] = {0, 1, 0, 1};
    struct session s;
    open_session(&s, LINES({OR, 0, 0}, {FIN, 0, 0}, {OUTPUT, 2, 0},
                           {AWAIT_INPUT, 1, 0}));
    expect_answer("example 6: start takes 5 steps", start(&s), 5, 0, 1, 0,
                  false);
    expect("example 6: marks 0 1 0 1", memcmp(s.marks, marks, 4) == 0);
    expect_answer("example 6: event 1 of 40 takes 4 steps", react(&s, 1, 40),
                  4, 0, 1, 1, true);
    expect_output("example 6: output 40", &s, 0, 2, 40);
}

static void examples_7_and_8(void)
{
    struct session s;
    open_session(&s, LINES({EVERY_INPUT, 1, 0}, {OUTPUT, 1, 0}));
    start(&s);
    expect_answer("example 7: event 1 takes 4 steps", react(&s, 1, 8), 4, 0, 1,
                  1, false);
    expect_output("example 7: output of v0", &s, 0, 1, 8);
    open_session(&s,
                 LINES({OR, 0, 0}, {AWAIT_INPUT, 1, 0}, {AWAIT_INPUT, 1, 0}));
    start(&s);
    expect_answer("example 8: event 1 takes 3 steps", react(&s, 1, 0), 3, 0, 1,
                  0, true);
}

static void examples_9_to_11(void)
{
    struct session s;
    open_session(&s, LINES({LOOP, 0, 0}, {OR, 0, 0}, {AWAIT_INTERNAL, 1, 0},
                           {EMIT, 1, 0}));
    expect_check_refused("example 9: refused 7 at 0", &s, 7, 0);
    open_session(&s, LINES({LOOP, 0, 0}, {AND, 0, 0}, {AWAIT_INPUT, 1, 0},
                           {NOTHING, 0, 0}));
    expect_number("example 10: with and accepted", check(&s).refused, 0);
    open_session(&s, LINES({LOOP, 0, 0}, {OR, 0, 0}, {AWAIT_INPUT, 1, 0},
                           {NOTHING, 0, 0}));
    expect_check_refused("example 10: with or refused 7 at 0", &s, 7, 0);
    open_session(&s, LINES({LOOP, 0, 0}, {LOOP, 0, 0}, {SEQUENCE, 0, 0},
                           {AWAIT_INPUT, 1, 0}, {BREAK, 0, 0}));
    expect_check_refused("example 11: refused 7 at 0", &s, 7, 0);
}

static int32_t quotient(int32_t v, int32_t w)
{
    struct session s;
    open_session(&s, LINES({SEQUENCE, 0, 0}, {SET, 1, v}, {SEQUENCE, 0, 0},
                           {SET, 2, w}, {DIVIDE, 1, 2}));
    start(&s);
    return s.variables[1];
}

static void example_12(void)
{
    struct session s;
    expect_number("example 12: -7 / 2 is -3", quotient(-7, 2), -3);
    expect_number("example 12: 7 / -2 is -3", quotient(7, -2), -3);
    expect_number("division by 0 gives 0", quotient(7, 0), 0);
    expect_number("-2147483648 / -1 is -2147483648", quotient(INT32_MIN, -1),
                  INT32_MIN);
    open_session(&s, LINES({SEQUENCE, 0, 0}, {SET, 1, -9}, {SUBTRACT, 1, 1}));
    start(&s);
    expect_number("example 12: a variable minus itself 0", s.variables[1], 0);
    open_session(&s, LINES({SEQUENCE, 0, 0}, {SET, 1, -9}, {LESS, 1, 1}));
    start(&s);
    expect_number("example 12: less than itself 0", s.variables[1], 0);
}

/* count records: sequences with nothing on the left, one record at the end. */
static void open_long(struct session *s, size_t count)
{
    struct line lines[258];
    for (size_t i = 0; i < count; i++) {
        lines[i].kind = i % 2 == 0 && i + 1 < count ? SEQUENCE : NOTHING;
        lines[i].name = 0;
        lines[i].number = 0;
    }
    if (count % 2 == 0) { /* the last pair: a fin of nothing */
        lines[count - 2].kind = FIN;
        lines[count - 1].kind = NOTHING;
    }
    open_session(s, lines, count);
}

static void open_nested_loops(struct session *s, size_t loops)
{
    struct line lines[16];
    for (size_t i = 0; i < loops; i++)
        lines[i] = (struct line){LOOP, 0, 0};
    lines[loops] = (struct line){AWAIT_INPUT, 1, 0};
    open_session(s, lines, loops + 1);
}

static void example_13(void)
{
    struct session s;
    open_long(&s, 256);
    expect_number("example 13: 256 records accepted", check(&s).refused, 0);
    expect_answer("256 records run", start(&s), 2 + 127, 0, 1, 0, false);
    open_long(&s, 257);
    expect_check_refused("example 13: 257 records refused 1", &s, 1, 0);
    open_nested_loops(&s, 8);
    expect_number("example 13: eight nested loops accepted", check(&s).refused,
                  0);
    expect_number("eight nested loops: D is 8", check(&s).steps,
                  5 * 9 * 9 + 1 * 11);
    expect_answer("eight nested loops start", start(&s), 10, 0, 1, 0, false);
    expect_answer("eight nested loops take an event", react(&s, 1, 0), 4, 0, 1,
                  0, false);
    open_nested_loops(&s, 9);
    expect_check_refused("example 13: nine refused 6 at the innermost", &s, 6,
                         8);
}

void cases_examples(void)
{
    examples_1_to_3();
    example_4();
    example_5();
    example_6();
    examples_7_and_8();
    examples_9_to_11();
    example_12();
    example_13();
}
