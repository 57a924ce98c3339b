/* Lists of events: refusals 10 and 12, sums, the empty list. */
#include <stdlib.h>
#include <string.h>

#include "cases.h"

static void put_event(uint8_t *bytes, uint8_t event, uint8_t value)
{
    memset(bytes, 0, RECORD_BYTES);
    bytes[0] = event;
    bytes[4] = value;
}

static void start_echo(struct session *s)
{
    open_echo(s);
    start(s);
}

static void list_sums(void)
{
    struct session s;
    uint8_t events[24];
    start_echo(&s);
    put_event(events, 1, 10);
    put_event(events + 8, 2, 20);
    put_event(events + 16, 1, 30);
    expect_answer("a list adds up", run_list(&s, events, 24, 64), 6 + 2 + 6, 0,
                  1, 2, false);
    expect_output("a list: the first output", &s, 0, 1, 10);
    expect_output("a list goes on behind its earlier events", &s, 1, 1, 30);
    expect("a list: bytes behind stay", s.out[16] == 0xee);
    expect_number("a list: totals count its events",
                  (int64_t)s.totals.reactions, 3);
    expect_number("a list: totals count its steps", (int64_t)s.totals.steps,
                  14);
    expect_number("a list: variable 0 is the last value", s.variables[0], 30);
}

static void empty_list(void)
{
    struct session s, before;
    start_echo(&s);
    before = s;
    expect_answer("an empty list succeeds, waiting", run_list(&s, NULL, 0, 0),
                  0, 0, 0, 0, false);
    expect("an empty list changes nothing",
           memcmp(&before, &s, sizeof s) == 0);
    open_session(&s, LINES({NOTHING, 0, 0}));
    expect_answer("an empty list succeeds, finished", run_list(&s, NULL, 0, 0),
                  0, 0, 0, 0, true);
}

static void expect_12(const char *name, struct independent_answer a,
                      uint32_t place, uint64_t steps, uint32_t highest,
                      uint64_t outputs, uint32_t finished)
{
    expect_number(name, a.refused, 12);
    expect_number(name, a.place, place);
    expect_number(name, (int64_t)a.steps, (int64_t)steps);
    expect_number(name, (int64_t)a.emitted, 0);
    expect_number(name, a.highest, highest);
    expect_number(name, (int64_t)a.outputs, (int64_t)outputs);
    expect_number(name, a.finished, finished);
}

static void refusal_12(void)
{
    struct session s;
    uint8_t events[24];
    start_echo(&s);
    put_event(events, 1, 10);
    put_event(events + 8, 1, 20);
    put_event(events + 16, 1, 30);
    expect_12("12: no room for the first event, no 11 in a list",
              run_list(&s, events, 24, 15), 0, 0, 0, 0, 0);
    expect_number("12: no event taken, no totals", (int64_t)s.totals.reactions,
                  0);
    expect_12("12: the finished events stand", run_list(&s, events, 24, 31), 2,
              12, 1, 2, 0);
    expect_output("12: the outputs of the events taken", &s, 1, 1, 20);
    expect_number("12: variable 0 of the last event taken", s.variables[0],
                  20);
    expect_number("12: totals of the events taken",
                  (int64_t)s.totals.reactions, 2);
    expect_number("12: steps of the events taken", (int64_t)s.totals.steps,
                  12);
    open_session(&s,
                 LINES({SEQUENCE, 0, 0}, {AWAIT_INPUT, 1, 0}, {OUTPUT, 1, 0}));
    start(&s);
    expect_12("12: finished as the marks then stand",
              run_list(&s, events, 24, 8), 1, 4, 1, 1, 1);
}

static void expect_list_10(const char *name, const uint8_t *events,
                           size_t events_bytes, uint32_t place)
{
    struct session s, before;
    start_echo(&s);
    before = s;
    expect_refused(name, run_list(&s, events, events_bytes, 0), 10, place);
    expect(name, memcmp(&before, &s, sizeof s) == 0);
}

static void refusal_10(void)
{
    uint8_t events[40];
    for (size_t i = 0; i < 5; i++)
        put_event(events + RECORD_BYTES * i, 1, 1);
    expect_list_10("10: a broken last record", events, 39, 4);
    expect_list_10("10: a broken record alone", events, 1, 0);
    events[24] = 0;
    expect_list_10("10: event 0 in a list", events, 40, 3);
    expect_list_10("10: a bad record before a broken last one", events, 39, 3);
    events[24] = 64;
    expect_list_10("10: event 64 in a list", events, 40, 3);
    for (size_t byte = 1; byte <= 3; byte++) {
        put_event(events + 8, 1, 1);
        events[8 + byte] = 1;
        expect_list_10("10: bytes 1 to 3 not zero", events, 40, 1);
    }
}

static void long_lists(void)
{
    uint8_t *events = room_for(65544);
    struct session s;
    struct independent_answer a;
    expect_list_10("10: a list too long, tested first", events, 65537, 8192);
    expect_list_10("10: a list of 8,193 events", events, 65544, 8192);
    expect_list_10("10: a list of 8,192 events with a bad one", events, 65536,
                   0);
    for (size_t i = 0; i < 8192; i++)
        put_event(events + RECORD_BYTES * i, 63, 0);
    expect_list_10("10: the last record broken", events, 65535, 8191);
    open_session(&s, LINES({AWAIT_INPUT, 1, 0}));
    start(&s);
    a = run_list(&s, events, 65536, 0);
    expect_answer("a list of 8,192 events", a, 2 * 8192, 0, 1, 0, false);
    free(events);
}

void cases_lists(void)
{
    list_sums();
    empty_list();
    refusal_12();
    refusal_10();
    long_lists();
}
