/* The programs and events of the benchmark's rows. After its 100 events a
 * program waits where it waited before them, so that each round of events
 * costs the same. */
#include <stdio.h>
#include <stdlib.h>
#include <string.h>

#include "work.h"

enum { IGNORED_EVENT = 63 };

void add_record(struct work *w, uint32_t kind, uint32_t name, int32_t number)
{
    if (w->records == MOST_RECORDS)
        abort();
    put_record(w->table, w->records++, kind, name, number);
}

void add_event(struct work *w, uint32_t event, int32_t value)
{
    if (w->event_count == WORK_EVENTS)
        abort();
    put_record(w->events, w->event_count, event, 0, value);
    put_span(w->events, w->event_count++, 0);
}

static void fill_events(struct work *w, uint32_t event)
{
    while (w->event_count < WORK_EVENTS)
        add_event(w, event, (int32_t)w->event_count);
}

/* The next leaf of a sequence that goes on, and its last leaf. */
static void then(struct work *w, uint32_t kind, uint32_t name, int32_t number)
{
    add_record(w, SEQUENCE, 0, 0);
    add_record(w, kind, name, number);
}

/* Pieces of programs. A channel has its own events (8c + 1 on), variables
 * (10c + 1 on), outputs (10c + 1 on) and one internal event (c + 1). */
static uint32_t input(uint32_t c, uint32_t event)
{
    return 8 * c + event;
}

static uint32_t own(uint32_t c, uint32_t name)
{
    return 10 * c + name;
}

/* 12 records: waits for two echoes, keeps them, counts and emits. */
static void piece_contact(struct work *w, uint32_t c)
{
    add_record(w, LOOP, 0, 0);
    then(w, AWAIT_INPUT, input(c, 1), 0);
    then(w, COPY, own(c, 1), 0);
    then(w, AWAIT_INPUT, input(c, 2), 0);
    then(w, COPY, own(c, 2), 0);
    then(w, ADD, own(c, 3), 1);
    add_record(w, EMIT, c + 1, 0);
}

/* 6 records: puts out each contact. */
static void piece_report(struct work *w, uint32_t c)
{
    add_record(w, EVERY_INTERNAL, c + 1, 0);
    then(w, OUTPUT, own(c, 1), (int32_t)own(c, 1));
    then(w, OUTPUT, own(c, 2), (int32_t)own(c, 2));
    add_record(w, OUTPUT, own(c, 3), (int32_t)own(c, 3));
}

/* 10 records: compares each value of event 3 with the last contact. */
static void piece_compare(struct work *w, uint32_t c)
{
    add_record(w, EVERY_INPUT, input(c, 3), 0);
    then(w, COPY, own(c, 4), 0);
    then(w, SUBTRACT, own(c, 4), (int32_t)own(c, 1));
    then(w, LESS, own(c, 4), (int32_t)own(c, 2));
    add_record(w, IF, own(c, 4), 0);
    add_record(w, OUTPUT, own(c, 4), 0);
    add_record(w, ADD, own(c, 5), 1);
}

/* 8 records: whichever of two events comes first, again and again. */
static void piece_either(struct work *w, uint32_t c)
{
    add_record(w, LOOP, 0, 0);
    add_record(w, OR, 0, 0);
    then(w, AWAIT_INPUT, input(c, 4), 0);
    add_record(w, OUTPUT, own(c, 5), 0);
    then(w, AWAIT_INPUT, input(c, 5), 0);
    add_record(w, DIVIDE, own(c, 6), (int32_t)own(c, 3));
}

/* 5 records: a fin that runs when its event comes. */
static void piece_end(struct work *w, uint32_t c, uint32_t event)
{
    add_record(w, LOOP, 0, 0);
    add_record(w, OR, 0, 0);
    add_record(w, FIN, 0, 0);
    add_record(w, OUTPUT, own(c, 6), (int32_t)own(c, 5));
    add_record(w, AWAIT_INPUT, event, 0);
}

/* 19 records: counts event 7 to four, breaks out, waits for event 8. */
static void piece_count(struct work *w, uint32_t c)
{
    add_record(w, LOOP, 0, 0);
    add_record(w, SEQUENCE, 0, 0);
    add_record(w, LOOP, 0, 0);
    then(w, AWAIT_INPUT, input(c, 7), 0);
    then(w, ADD, own(c, 8), 1);
    then(w, SET, own(c, 9), 3);
    then(w, LESS, own(c, 9), (int32_t)own(c, 8));
    add_record(w, IF, own(c, 9), 0);
    add_record(w, BREAK, 0, 0);
    add_record(w, NOTHING, 0, 0);
    then(w, OUTPUT, own(c, 7), (int32_t)own(c, 8));
    then(w, SET, own(c, 8), 0);
    add_record(w, AWAIT_INPUT, input(c, 8), 0);
}

/* 65 records: all six pieces side by side. */
static void six_pieces(struct work *w, uint32_t c)
{
    add_record(w, AND, 0, 0);
    piece_contact(w, c);
    add_record(w, AND, 0, 0);
    piece_report(w, c);
    add_record(w, AND, 0, 0);
    piece_compare(w, c);
    add_record(w, AND, 0, 0);
    piece_either(w, c);
    add_record(w, AND, 0, 0);
    piece_end(w, c, input(c, 6));
    piece_count(w, c);
}

static void contact_events(struct work *w, uint32_t c)
{
    add_event(w, input(c, 1), 500);
    add_event(w, input(c, 2), 70);
}

/* 12 events, after which the six pieces wait as before. */
static void six_pieces_events(struct work *w, uint32_t c)
{
    contact_events(w, c);
    add_event(w, input(c, 3), 510);
    add_event(w, input(c, 3), 900);
    for (uint32_t event = 4; event <= 6; event++)
        add_event(w, input(c, event), 5);
    for (uint32_t times = 0; times < 4; times++)
        add_event(w, input(c, 7), 1);
    add_event(w, input(c, 8), 0);
}

/* small: 10 records, a loop that takes each value of event 1. */
static void make_small(struct work *w)
{
    add_record(w, LOOP, 0, 0);
    then(w, AWAIT_INPUT, 1, 0);
    then(w, COPY, 1, 0);
    then(w, ADD, 2, 1);
    then(w, OUTPUT, 1, 1);
    add_record(w, OUTPUT, 2, 2);
    fill_events(w, 1);
}

/* medium: the six pieces once. */
static void make_medium(struct work *w)
{
    six_pieces(w, 0);
    for (uint32_t round = 0; round < 8; round++)
        six_pieces_events(w, 0);
    contact_events(w, 0);
    contact_events(w, 0);
}

static void full_events(struct work *w)
{
    for (uint32_t round = 0; round < 2; round++) {
        for (uint32_t c = 0; c < 3; c++)
            six_pieces_events(w, c);
        contact_events(w, 3);
        contact_events(w, 4);
        add_event(w, input(3, 6), 1);
        add_event(w, input(4, 6), 1);
    }
    for (uint32_t c = 0; c < 5; c++)
        contact_events(w, c);
    for (uint32_t c = 0; c < 3; c++) {
        add_event(w, input(c, 3), 600);
        add_event(w, input(c, 4), 600);
    }
}

/* full: 256 records. The six pieces in three channels, two channels of
 * contacts, a second report and two fins. */
static void make_full(struct work *w)
{
    for (uint32_t c = 0; c < 3; c++) {
        add_record(w, AND, 0, 0);
        six_pieces(w, c);
    }
    for (uint32_t c = 3; c < 5; c++) {
        add_record(w, AND, 0, 0);
        piece_contact(w, c);
        add_record(w, AND, 0, 0);
        piece_report(w, c);
    }
    add_record(w, AND, 0, 0);
    piece_report(w, 4);
    add_record(w, AND, 0, 0);
    piece_end(w, 3, input(3, 6));
    piece_end(w, 4, input(4, 6));
    full_events(w);
}

/* 4 * levels + 4 records: event 1 wakes the first trail, which emits; each
 * trail woken emits the next event; the last one puts out. Then all have
 * ended, and the loop lets all wait again. */
static void put_chain(struct work *w, uint32_t levels)
{
    add_record(w, LOOP, 0, 0);
    for (uint32_t trail = 0; trail < levels; trail++) {
        add_record(w, AND, 0, 0);
        then(w, trail == 0 ? AWAIT_INPUT : AWAIT_INTERNAL,
             trail == 0 ? 1 : trail, 0);
        add_record(w, EMIT, trail + 1, 0);
    }
    then(w, AWAIT_INTERNAL, levels, 0);
    add_record(w, OUTPUT, 1, 0);
}

/* 256 records at any number of levels: the rest is a trail that waits. */
static void make_levels(struct work *w, uint32_t levels)
{
    add_record(w, AND, 0, 0);
    then(w, AWAIT_INPUT, 62, 0);
    while (w->records < MOST_RECORDS - (4 * levels + 4) - 1)
        then(w, NOTHING, 0, 0);
    add_record(w, NOTHING, 0, 0);
    put_chain(w, levels);
    fill_events(w, 1);
}

/* Trails of 7 records, each with an and, that wait for events 2 on; then one
 * trail of 8 records, the only one that event 1 wakes. */
static void make_records(struct work *w, uint32_t records)
{
    for (uint32_t event = 2; w->records < records - 8; event++) {
        add_record(w, AND, 0, 0);
        add_record(w, LOOP, 0, 0);
        add_record(w, SEQUENCE, 0, 0);
        add_record(w, OR, 0, 0);
        add_record(w, FIN, 0, 0);
        add_record(w, OUTPUT, 2, 2);
        add_record(w, AWAIT_INPUT, event, 0);
        add_record(w, COPY, 2, 0);
    }
    add_record(w, LOOP, 0, 0);
    then(w, AWAIT_INPUT, 1, 0);
    then(w, COPY, 1, 0);
    then(w, ADD, 1, 1);
    add_record(w, OUTPUT, 1, 1);
}

static bool make_program(struct work *w, const char *name)
{
    uint32_t number = 0;
    if (strncmp(name, "small", 5) == 0) {
        make_small(w);
    } else if (strncmp(name, "medium", 6) == 0) {
        make_medium(w);
    } else if (strncmp(name, "full", 4) == 0) {
        make_full(w);
    } else if (strcmp(name, "scenario") == 0) {
        make_scenario(w);
    } else if (strcmp(name, "chain") == 0) {
        put_chain(w, 50);
    } else if (sscanf(name, "records-%u", &number) == 1 && number >= 8 &&
               number <= MOST_RECORDS && number % 8 == 0) {
        make_records(w, number);
    } else if (sscanf(name, "levels-%u", &number) == 1 && number >= 1 &&
               number <= 50) {
        make_levels(w, number);
    } else {
        return false;
    }
    return true;
}

bool make_work(struct work *w, const char *name)
{
    memset(w, 0, sizeof *w);
    if (!make_program(w, name))
        return false;
    put_spans(w->table, w->records);
    if (strstr(name, "-ignored") != NULL) {
        w->event_count = 0;
        fill_events(w, IGNORED_EVENT);
    }
    fill_events(w, 1);
    return true;
}
