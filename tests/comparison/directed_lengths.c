/* Directed scenarios: every wrong length of every slice of every call, every
 * wrong event and list, and all of them together, for the order in which a
 * call refuses. */
#include "comparison.h"

static void put_words(struct scenario *s, const uint8_t (*words)[2],
                      uint32_t records)
{
    for (uint32_t i = 0; i < records; i++)
        add_record(s, words[i][0], words[i][1], 0);
    put_spans(s->table, s->records);
}

/* Four programs: with outputs, with an every that emits cannot reach, with
 * nothing to announce, and one record. */
static void begin_with(struct scenario *s, uint32_t which, const char *name)
{
    static const uint8_t a_fin[][2] = {
        {OR, 0}, {FIN, 0}, {OUTPUT, 2}, {AWAIT_INPUT, 1}};
    static const uint8_t an_every[][2] = {{AND, 0},         {EVERY_INPUT, 1},
                                          {OUTPUT, 1},      {SEQUENCE, 0},
                                          {AWAIT_INPUT, 1}, {EMIT, 1}};
    static const uint8_t silent[][2] = {
        {LOOP, 0}, {SEQUENCE, 0}, {AWAIT_INPUT, 1}, {EMIT, 1}};
    static const uint8_t one[][2] = {{AWAIT_INPUT, 1}};
    begin_directed(s, name);
    if (which == 0)
        put_words(s, a_fin, 4);
    else if (which == 1)
        put_words(s, an_every, 6);
    else if (which == 2)
        put_words(s, silent, 4);
    else
        put_words(s, one, 1);
    add_call(s, START);
}

/* The call, its aftermath, and the same call as it should be. */
static bool then_rightly(struct scenario *s, enum call_kind kind,
                         try_scenario attempt)
{
    struct call *c;
    add_call(s, QUERY);
    c = add_call(s, kind);
    c->list.records = 2;
    c->lengths[OUT].how = OFF;
    c->lengths[OUT].off = 32;
    add_call(s, REMAINING);
    return attempt(s);
}

static bool wrong_length(uint32_t which, uint32_t kind, uint32_t slice,
                         struct length length, try_scenario attempt)
{
    struct scenario s;
    struct call *c;
    begin_with(&s, which, "a wrong length");
    c = add_call(&s, (enum call_kind)kind);
    c->list.records = 2;
    c->lengths[slice] = length;
    return then_rightly(&s, (enum call_kind)kind, attempt);
}

static bool wrong_lengths(uint32_t which, uint32_t kind, uint32_t slice,
                          try_scenario attempt)
{
    static const int32_t offs[] = {-1, 1, -7, 7, -8, 8, -16, 16, -4, 4, 64};
    for (uint32_t how = RIGHT; how < HOW_LONG; how++) {
        struct length length = {(uint8_t)how, 0};
        if (how != OFF && !wrong_length(which, kind, slice, length, attempt))
            return false;
    }
    for (size_t i = 0; i < COUNT(offs); i++) {
        struct length length = {OFF, offs[i]};
        if (!wrong_length(which, kind, slice, length, attempt))
            return false;
    }
    return true;
}

static bool wrong_slices(uint32_t which, uint32_t kind, try_scenario attempt)
{
    for (uint32_t slice = 0; slice < TOTALS; slice++)
        if (takes(kind, slice) && !wrong_lengths(which, kind, slice, attempt))
            return false;
    return true;
}

static bool all_wrong_lengths(try_scenario attempt)
{
    for (uint32_t which = 0; which < 4; which++)
        for (uint32_t kind = 0; kind < CALLS; kind++)
            if (!wrong_slices(which, kind, attempt))
                return false;
    return true;
}

static bool wrong_events(try_scenario attempt)
{
    static const uint32_t events[] = {
        0,     63,          64,          65,          127,
        128,   255,         256,         257,         65536,
        65537, 0x7fffffffu, 0x80000000u, 0x80000001u, 0xffffffffu};
    struct scenario s;
    for (size_t i = 0; i < COUNT(events); i++) {
        begin_with(&s, (uint32_t)i % 4, "a wrong event");
        add_call(&s, REACT)->event = events[i];
        if (!then_rightly(&s, REACT, attempt))
            return false;
    }
    return true;
}

/* One record is wrong, and perhaps the last one is broken besides. */
static bool wrong_list(uint32_t records, int32_t odd_at, uint64_t odd,
                       int32_t off, try_scenario attempt)
{
    struct scenario s;
    struct call *c;
    begin_with(&s, (uint32_t)odd_at % 4, "a wrong list");
    c = add_call(&s, RUN_LIST);
    c->list.records = records;
    c->list.odd_at = odd_at;
    c->list.odd = odd;
    c->lengths[EVENTS].how = OFF;
    c->lengths[EVENTS].off = off;
    c->lengths[OUT].how = OFF;
    c->lengths[OUT].off = 64;
    return then_rightly(&s, RUN_LIST, attempt);
}

/* A list of five with this record at each place, and behind the last. */
static bool wrong_record(uint64_t record, int32_t off, try_scenario attempt)
{
    for (int32_t at = 0; at <= 5; at++)
        if (!wrong_list(5, at, record, off, attempt))
            return false;
    return true;
}

static bool wrong_lists(try_scenario attempt)
{
    static const uint64_t records[] = {
        0,         63,          64,          65,           128,
        255,       0x101,       0x8001,      0x10001,      0x800001,
        0x1000001, 0x80000001u, 0xffffff01u, 0xff00000000u};
    static const int32_t offs[] = {0, -1, -7, -8, 1, 7};
    for (size_t i = 0; i < COUNT(records); i++)
        for (size_t o = 0; o < COUNT(offs); o++)
            if (!wrong_record(records[i], offs[o], attempt))
                return false;
    return true;
}

/* Around 65,536 bytes: tested before the records are. */
static bool long_lists(try_scenario attempt)
{
    for (int32_t off = -9; off <= 9; off++)
        if (!wrong_list(MOST_LIST_RECORDS, off % 2 ? 0 : MOST_LIST_RECORDS + 2,
                        0, off, attempt))
            return false;
    return wrong_list(MOST_LIST_RECORDS, MOST_LIST_RECORDS - 1, 64, 0,
                      attempt);
}

/* What can be wrong with a call, as bits. */
enum wrong {
    LONG_TABLE = 1,
    LONG_MARKS = 2,
    MANY_VARIABLES = 4,
    BAD_EVENT = 8,
    NO_ROOM = 16,
    BAD_NAME = 32,
    BAD_MARK = 64,
    ALL_WRONGS = 128
};

/* Every set of wrongs together: the lowest number decides. */
static bool wrongs_together(uint32_t kind, uint32_t wrongs,
                            try_scenario attempt)
{
    static const struct length one_more = {OFF, 1}, none = {ZERO, 0},
                               broken = {OFF, -3};
    struct scenario s;
    struct call *c;
    begin_with(&s, wrongs % 2, "several wrongs together");
    c = add_call(&s, (enum call_kind)kind);
    c->list.records = 3;
    if (wrongs & LONG_TABLE)
        c->lengths[TABLE] = one_more;
    if (wrongs & LONG_MARKS)
        c->lengths[MARKS] = one_more;
    if (wrongs & MANY_VARIABLES)
        c->lengths[VARIABLE] = one_more;
    if (wrongs & BAD_EVENT) {
        c->event = 64;
        c->lengths[EVENTS] = broken;
    }
    if (wrongs & NO_ROOM)
        c->lengths[OUT] = none;
    if (wrongs & BAD_NAME)
        s.table[1] = 1; /* a name on a kind that has none */
    if (wrongs & BAD_MARK) {
        c->new_marks = 1;
        c->marks[0] = 2;
    }
    return then_rightly(&s, (enum call_kind)kind, attempt);
}

bool directed_lengths(try_scenario attempt)
{
    for (uint32_t kind = 0; kind < CALLS; kind++)
        for (uint32_t wrongs = 0; wrongs < ALL_WRONGS; wrongs++)
            if (!wrongs_together(kind, wrongs, attempt))
                return false;
    return all_wrong_lengths(attempt) && wrong_events(attempt) &&
           wrong_lists(attempt) && long_lists(attempt);
}
