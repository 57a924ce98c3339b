/* Directed scenarios: document 01's examples, the largest programs, the totals
 * at the top, and programs that take every rule. */
#include <string.h>

#include "comparison.h"

enum { MOST_LINES = 20 };

struct line {
    uint8_t kind, name;
    int32_t number;
};

struct example {
    const char *name;
    uint32_t lines;
    struct line line[MOST_LINES];
};

static const struct example examples[] = {
    {"example 1", 1, {{NOTHING, 0, 0}}},
    {"example 2", 1, {{SET, 1, 5}}},
    {"example 3", 1, {{AWAIT_INPUT, 1, 0}}},
    {"example 4",
     9,
     {{AND, 0, 0},
      {SEQUENCE, 0, 0},
      {AWAIT_INTERNAL, 1, 0},
      {OUTPUT, 1, 1},
      {SEQUENCE, 0, 0},
      {SET, 1, 7},
      {SEQUENCE, 0, 0},
      {EMIT, 1, 0},
      {SET, 1, 9}}},
    {"example 5",
     4,
     {{LOOP, 0, 0}, {SEQUENCE, 0, 0}, {AWAIT_INPUT, 1, 0}, {OUTPUT, 1, 0}}},
    {"example 6",
     4,
     {{OR, 0, 0}, {FIN, 0, 0}, {OUTPUT, 2, 0}, {AWAIT_INPUT, 1, 0}}},
    {"example 7", 2, {{EVERY_INPUT, 1, 0}, {OUTPUT, 1, 0}}},
    {"example 8", 3, {{OR, 0, 0}, {AWAIT_INPUT, 1, 0}, {AWAIT_INPUT, 1, 0}}},
    {"example 9",
     4,
     {{LOOP, 0, 0}, {OR, 0, 0}, {AWAIT_INTERNAL, 1, 0}, {EMIT, 1, 0}}},
    {"example 10",
     4,
     {{LOOP, 0, 0}, {AND, 0, 0}, {AWAIT_INPUT, 1, 0}, {NOTHING, 0, 0}}},
    {"example 10 with or",
     4,
     {{LOOP, 0, 0}, {OR, 0, 0}, {AWAIT_INPUT, 1, 0}, {NOTHING, 0, 0}}},
    {"example 11",
     5,
     {{LOOP, 0, 0},
      {LOOP, 0, 0},
      {SEQUENCE, 0, 0},
      {AWAIT_INPUT, 1, 0},
      {BREAK, 0, 0}}},
    {"example 12",
     17,
     {{SEQUENCE, 0, 0},
      {SET, 1, -7},
      {SEQUENCE, 0, 0},
      {SET, 2, 2},
      {SEQUENCE, 0, 0},
      {DIVIDE, 1, 2},
      {SEQUENCE, 0, 0},
      {SET, 3, 7},
      {SEQUENCE, 0, 0},
      {SET, 4, -2},
      {SEQUENCE, 0, 0},
      {DIVIDE, 3, 4},
      {SEQUENCE, 0, 0},
      {SUBTRACT, 5, 5},
      {SEQUENCE, 0, 0},
      {LESS, 6, 6},
      {OUTPUT, 1, 3}}},
    {"a break with no loop",
     3,
     {{SEQUENCE, 0, 0}, {AWAIT_INPUT, 1, 0}, {BREAK, 0, 0}}},
    {"an await under an every", 2, {{EVERY_INPUT, 1, 0}, {AWAIT_INPUT, 1, 0}}},
    {"a kind over 19", 2, {{EVERY_INPUT, 1, 0}, {KINDS, 0, 0}}},
    {"a name that is off", 2, {{EVERY_INPUT, 64, 0}, {NOTHING, 0, 0}}},
    {"the least by -1",
     7,
     {{SEQUENCE, 0, 0},
      {SET, 1, INT32_MIN},
      {SEQUENCE, 0, 0},
      {SET, 2, -1},
      {SEQUENCE, 0, 0},
      {DIVIDE, 1, 2},
      {OUTPUT, 63, 1}}},
};

/* Nothing but zeros; the variables are not all the same. */
void begin_directed(struct scenario *s, const char *name)
{
    memset(s, 0, sizeof *s);
    s->name = name;
    for (int32_t i = 0; i < VARIABLES_ROOM; i++)
        s->first.variables[i] = i - 3;
}

static void ask(struct scenario *s)
{
    add_call(s, QUERY);
    add_call(s, REMAINING);
}

static void react_to(struct scenario *s, uint32_t event, int32_t value)
{
    struct call *c = add_call(s, REACT);
    c->event = event;
    c->value = value;
    ask(s);
}

/* From the start on: events 2 and 1, then a list of both. */
static void calls_of_example(struct scenario *s)
{
    struct call *c;
    add_call(s, CHECK);
    add_call(s, START);
    ask(s);
    react_to(s, 2, 7);
    react_to(s, 1, 40);
    react_to(s, 1, INT32_MIN);
    c = add_call(s, RUN_LIST);
    c->list.records = 5;
    c->list.different = 2;
    c->list.few[1] = 2 | (uint64_t)9 << 32;
    c->lengths[OUT].how = OFF;
    c->lengths[OUT].off = 24;
    ask(s);
}

/* Once all records stand. */
static bool attempt_example(struct scenario *s, try_scenario attempt)
{
    put_spans(s->table, s->records);
    calls_of_example(s);
    return attempt(s);
}

static bool the_examples(try_scenario attempt)
{
    struct scenario s;
    for (size_t i = 0; i < COUNT(examples); i++) {
        const struct example *e = &examples[i];
        begin_directed(&s, e->name);
        for (const struct line *l = e->line; l < e->line + e->lines; l++)
            add_record(&s, l->kind, l->name, l->number);
        if (!attempt_example(&s, attempt))
            return false;
    }
    return true;
}

/* So many loops around one await: eight are accepted, nine are not. */
static bool nested_loops(try_scenario attempt)
{
    struct scenario s;
    for (uint32_t loops = 7; loops <= 10; loops++) {
        begin_directed(&s, "nested loops");
        for (uint32_t i = 0; i < loops; i++)
            add_record(&s, LOOP, 0, 0);
        add_record(&s, AWAIT_INPUT, 1, 0);
        if (!attempt_example(&s, attempt))
            return false;
    }
    return true;
}

/* So many records that nest to the right: 256 are accepted, 257 are not. */
static bool many_records(try_scenario attempt, enum kind kind, uint32_t last)
{
    struct scenario s;
    for (uint32_t records = 255; records <= 257; records++) {
        uint32_t odd = records % 2;
        begin_directed(&s, "as many records as can be");
        if (!odd)
            add_record(&s, LOOP, 0, 0);
        while (s.records < records - 1) {
            uint32_t event = 1 + s.records % LAST_NAME;
            add_record(&s, kind, 0, 0);
            add_record(&s, AWAIT_INPUT, event, 0);
        }
        add_record(&s, AWAIT_INPUT, last, 0);
        if (!attempt_example(&s, attempt))
            return false;
    }
    return true;
}

/* Every internal event wakes sixty outputs: thousands in one reaction. */
static bool many_outputs(try_scenario attempt)
{
    struct scenario s;
    begin_directed(&s, "many outputs");
    add_record(&s, LOOP, 0, 0);
    for (uint32_t i = 0; i < 60; i++) {
        add_record(&s, AND, 0, 0);
        add_record(&s, EVERY_INTERNAL, 63, 0);
        add_record(&s, OUTPUT, 1 + i, (int32_t)i);
    }
    add_record(&s, SEQUENCE, 0, 0);
    add_record(&s, AWAIT_INPUT, 1, 0);
    while (s.records < MOST_RECORDS - 2) {
        add_record(&s, SEQUENCE, 0, 0);
        add_record(&s, EMIT, 63, 0);
    }
    add_record(&s, EMIT, 63, 0);
    return attempt_example(&s, attempt);
}

/* The totals stop at the largest value, each by itself. */
static bool totals_at_the_top(try_scenario attempt)
{
    struct scenario s;
    for (uint32_t i = 0; i < 64; i++) {
        struct call *c;
        begin_directed(&s, "totals at the top");
        add_record(&s, EVERY_INPUT, 1, 0);
        add_record(&s, OUTPUT, 1, 0);
        put_spans(s.table, s.records);
        s.first.totals[0] = i / 8 == 7 ? 5 : UINT64_MAX - i / 8;
        s.first.totals[1] = i % 8 == 7 ? 5 : UINT64_MAX - i % 8;
        add_call(&s, START);
        add_call(&s, REACT);
        c = add_call(&s, RUN_LIST);
        c->list.records = 3;
        c->lengths[OUT].how = OFF;
        c->lengths[OUT].off = i % 2 ? 8 : 24;
        add_call(&s, REACT);
        if (!attempt(&s))
            return false;
    }
    return true;
}

bool directed(try_scenario attempt)
{
    return the_examples(attempt) && nested_loops(attempt) &&
           many_records(attempt, SEQUENCE, 1) &&
           many_records(attempt, AND, 63) && many_records(attempt, OR, 2) &&
           many_outputs(attempt) && totals_at_the_top(attempt) &&
           directed_lengths(attempt) && directed_records(attempt);
}
