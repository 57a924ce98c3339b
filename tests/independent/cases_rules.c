/* Directed cases for the rules, their steps counted by hand. */
#include "cases.h"

/* loop (p and q) or loop (p or q), one side (await 1; break), the other side
 * (fin output 1 v0). */
static void expect_break(const char *name, uint32_t pair, bool break_left)
{
    struct session s;
    if (break_left)
        open_session(&s, LINES({LOOP, 0, 0}, {pair, 0, 0}, {SEQUENCE, 0, 0},
                               {AWAIT_INPUT, 1, 0}, {BREAK, 0, 0}, {FIN, 0, 0},
                               {OUTPUT, 1, 0}));
    else
        open_session(
            &s, LINES({LOOP, 0, 0}, {pair, 0, 0}, {FIN, 0, 0}, {OUTPUT, 1, 0},
                      {SEQUENCE, 0, 0}, {AWAIT_INPUT, 1, 0}, {BREAK, 0, 0}));
    expect_answer(name, start(&s), 6, 0, 1, 0, false);
    expect_answer(name, react(&s, 1, 4), 7, 0, 1, 1, true);
    expect_output(name, &s, 0, 1, 4);
}

static void breaks(void)
{
    struct session s;
    expect_break("break on the left of @and clears the right", AND, true);
    expect_break("break on the left of @or clears the right", OR, true);
    expect_break("break on the right of @and clears the left", AND, false);
    expect_break("break on the right of @or clears the left", OR, false);
    open_session(&s, LINES({LOOP, 0, 0}, {SEQUENCE, 0, 0}, {BREAK, 0, 0},
                           {NOTHING, 0, 0}));
    expect_answer("break;q becomes break; break @loop q becomes @nop",
                  start(&s), 5, 0, 1, 0, true);
}

static void clears(void)
{
    struct session s;
    open_session(&s,
                 LINES({OR, 0, 0}, {AND, 0, 0}, {FIN, 0, 0}, {OUTPUT, 1, 0},
                       {FIN, 0, 0}, {OUTPUT, 2, 0}, {AWAIT_INPUT, 1, 0}));
    expect_answer("(fin and fin) or await 1 starts", start(&s), 8, 0, 1, 0,
                  false);
    expect_answer("clear of @and runs both fins", react(&s, 1, 5), 6, 0, 1, 2,
                  true);
    expect_output("clear: left before right, the left", &s, 0, 1, 5);
    expect_output("clear: left before right, the right", &s, 1, 2, 5);
    open_session(&s, LINES({OR, 0, 0}, {AWAIT_INPUT, 1, 0}, {FIN, 0, 0},
                           {OUTPUT, 1, 0}));
    start(&s);
    expect_answer("@nop @or q becomes clear(q)", react(&s, 1, 6), 4, 0, 1, 1,
                  true);
    open_session(&s,
                 LINES({OR, 0, 0}, {LOOP, 0, 0}, {SEQUENCE, 0, 0}, {FIN, 0, 0},
                       {OUTPUT, 1, 0}, {OUTPUT, 2, 0}, {AWAIT_INPUT, 1, 0}));
    start(&s);
    expect_answer("sequence and @loop clear their left", react(&s, 1, 6), 4, 0,
                  1, 1, true);
    expect_output("the right of a cleared sequence is dropped", &s, 0, 1, 6);
}

static void internal_events(void)
{
    struct session s;
    open_session(&s, LINES({AND, 0, 0}, {AWAIT_INPUT, 1, 0}, {EMIT, 1, 0}));
    expect_answer("an internal event wakes no input await", start(&s), 10, 1,
                  2, 0, false);
    open_session(&s, LINES({AWAIT_INTERNAL, 1, 0}));
    start(&s);
    expect_answer("an input event wakes no internal await", react(&s, 1, 0), 2,
                  0, 1, 0, false);
    open_session(&s, LINES({AND, 0, 0}, {EVERY_INPUT, 1, 0}, {OUTPUT, 1, 0},
                           {EMIT, 1, 0}));
    expect_answer("an internal event wakes no every input", start(&s), 10, 1,
                  2, 0, false);
    open_session(&s, LINES({EVERY_INTERNAL, 1, 0}, {OUTPUT, 1, 0}));
    start(&s);
    expect_answer("an input event wakes no every internal", react(&s, 1, 0), 2,
                  0, 1, 0, false);
    open_session(&s, LINES({OR, 0, 0}, {AWAIT_INTERNAL, 1, 0},
                           {SEQUENCE, 0, 0}, {EMIT, 1, 0}, {OUTPUT, 1, 0}));
    expect_answer("an emitter is cut off by what it woke", start(&s), 9, 1, 2,
                  0, true);
    open_session(&s, LINES({AND, 0, 0}, {EMIT, 1, 0}, {AWAIT_INTERNAL, 1, 0}));
    expect_answer("the right does not hear what the left emits first",
                  start(&s), 10, 1, 2, 0, false);
}

static void every_internal(void)
{
    struct session s;
    open_session(
        &s, LINES({AND, 0, 0}, {EVERY_INTERNAL, 1, 0}, {OUTPUT, 1, 1},
                  {SEQUENCE, 0, 0}, {SET, 1, 1}, {SEQUENCE, 0, 0},
                  {EMIT, 1, 0}, {SEQUENCE, 0, 0}, {SET, 1, 2}, {EMIT, 1, 0}));
    expect_answer("every internal runs for each of two emits", start(&s), 23,
                  2, 2, 2, false);
    expect_output("every internal: the first value", &s, 0, 1, 1);
    expect_output("every internal: the second value", &s, 1, 1, 2);
    open_session(&s,
                 LINES({AND, 0, 0}, {SEQUENCE, 0, 0}, {AWAIT_INTERNAL, 1, 0},
                       {EMIT, 2, 0}, {AND, 0, 0}, {SEQUENCE, 0, 0},
                       {AWAIT_INTERNAL, 2, 0}, {OUTPUT, 1, 0}, {EMIT, 1, 0}));
    expect_answer("an emit within an emit: level 3", start(&s), 21, 2, 3, 1,
                  true);
}

static void levels_and_loops(void)
{
    struct session s;
    open_session(
        &s, LINES({AND, 0, 0}, {AND, 0, 0}, {SEQUENCE, 0, 0},
                  {AWAIT_INTERNAL, 1, 0}, {EMIT, 2, 0}, {AWAIT_INTERNAL, 2, 0},
                  {SEQUENCE, 0, 0}, {EMIT, 1, 0}, {EMIT, 3, 0}));
    expect_answer("the highest level stays after a lower push", start(&s), 24,
                  3, 3, 0, true);
    open_session(&s, LINES({LOOP, 0, 0}, {SEQUENCE, 0, 0}, {OUTPUT, 1, 0},
                           {AWAIT_INPUT, 1, 0}));
    expect_answer("loop (output; await) starts", start(&s), 5, 0, 1, 1, false);
    expect_answer("the next round runs the whole body", react(&s, 1, 3), 6, 0,
                  1, 1, false);
    expect_output("the next round's output", &s, 0, 1, 3);
}

static void branches(void)
{
    struct session s;
    open_session(&s, LINES({IF, 1, 0}, {SET, 2, 3}, {SET, 2, 4}));
    expect_answer("if v is 0: right", start(&s), 4, 0, 1, 0, true);
    expect_number("if v is 0: v2 is 4", s.variables[2], 4);
    s.variables[1] = -1;
    expect_answer("if v is not 0: left", start(&s), 4, 0, 1, 0, true);
    expect_number("if v is not 0: v2 is 3", s.variables[2], 3);
    open_session(&s, LINES({SEQUENCE, 0, 0}, {AWAIT_INPUT, 1, 0}, {IF, 0, 0},
                           {OUTPUT, 1, 0}, {OUTPUT, 2, 0}));
    start(&s);
    react(&s, 1, 9);
    expect_output("if of variable 0, the event's value", &s, 0, 1, 9);
}

/* One action on v1 and v2; the new v1. */
static int32_t acted(uint32_t kind, int32_t v, int32_t w, int32_t number)
{
    struct session s;
    open_session(&s, LINES({kind, 1, number}));
    s.variables[1] = v;
    s.variables[2] = w;
    expect_answer("an action is one step", start(&s), 3, 0, 1, 0, true);
    expect_number("an action leaves w", s.variables[2], w);
    return s.variables[1];
}

static void actions(void)
{
    expect_number("v := number", acted(SET, 1, 2, INT32_MIN), INT32_MIN);
    expect_number("v := v + number", acted(ADD, 5, 2, -7), -2);
    expect_number("sums wrap up", acted(ADD, INT32_MAX, 0, 1), INT32_MIN);
    expect_number("sums wrap down", acted(ADD, INT32_MIN, 0, -1), INT32_MAX);
    expect_number("v := w", acted(COPY, 5, 9, 2), 9);
    expect_number("v := v - w", acted(SUBTRACT, 5, 9, 2), -4);
    expect_number("differences wrap", acted(SUBTRACT, INT32_MIN, 1, 2),
                  INT32_MAX);
    expect_number("differences wrap at the lowest",
                  acted(SUBTRACT, 0, INT32_MIN, 2), INT32_MIN);
    expect_number("v < w: 1", acted(LESS, -5, 0, 2), 1);
    expect_number("v = w: 0", acted(LESS, 3, 3, 2), 0);
    expect_number("v > w: 0", acted(LESS, INT32_MAX, INT32_MIN, 2), 0);
    expect_number("-7 / -2 is 3", acted(DIVIDE, -7, -2, 2), 3);
    expect_number("division of the lowest by 1",
                  acted(DIVIDE, INT32_MIN, 1, 2), INT32_MIN);
    expect_number("0 / 0 is 0", acted(DIVIDE, 0, 0, 2), 0);
}

static void finished_programs(void)
{
    struct session s;
    open_session(&s, LINES({AWAIT_INPUT, 1, 0}));
    expect_answer("a reaction of a finished program: push and pop",
                  react(&s, 1, 7), 2, 0, 1, 0, true);
    expect_number("a reaction puts the value in variable 0", s.variables[0],
                  7);
    open_session(&s,
                 LINES({AND, 0, 0}, {AWAIT_INPUT, 1, 0}, {AWAIT_INPUT, 1, 0}));
    start(&s);
    expect_answer("@nop @and @nop: left first", react(&s, 1, 0), 3, 0, 1, 0,
                  true);
}

void cases_rules(void)
{
    breaks();
    clears();
    internal_events();
    every_internal();
    levels_and_loops();
    branches();
    actions();
    finished_programs();
}
