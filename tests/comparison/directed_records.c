/* Directed scenarios: every kind with names, numbers and spans inside and
 * outside its ranges, every kind under an every and a fin, every pair of
 * constructs in a loop, and every row of marks of small programs. */
#include <string.h>

#include "comparison.h"

/* A record of the kind with right name and number, and what stands below;
 * spans come last. */
static void add_construct(struct scenario *s, uint32_t kind)
{
    uint32_t named = (kind >= SET && kind <= EMIT) || kind == EVERY_INPUT ||
                     kind == EVERY_INTERNAL;
    add_record(s, kind, named, 0);
    for (uint32_t below = children(kind); below > 0; below--)
        add_record(s,
                   kind >= EVERY_INPUT && kind != AND && kind != OR
                       ? OUTPUT
                       : AWAIT_INPUT,
                   1, 0);
}

static bool check_and_start(struct scenario *s, try_scenario attempt)
{
    add_call(s, CHECK);
    add_call(s, START);
    add_call(s, REACT);
    add_call(s, QUERY);
    add_call(s, REMAINING);
    return attempt(s);
}

/* (the record; await 1), with the record changed by the caller at place 1. */
static void begin_record(struct scenario *s, uint32_t kind, const char *name)
{
    begin_directed(s, name);
    add_record(s, SEQUENCE, 0, 0);
    add_construct(s, kind);
    add_record(s, AWAIT_INPUT, 1, 0);
    put_spans(s->table, s->records);
}

static bool names_and_numbers(uint32_t kind, try_scenario attempt)
{
    static const uint8_t names[] = {0, 1, 62, 63, 64, 65, 128, 255};
    static const int32_t numbers[] = {
        0, 1, 62, 63, 64, 65, 256, 1 << 24, -1, INT32_MAX, INT32_MIN};
    struct scenario s;
    for (size_t i = 0; i < COUNT(names) * COUNT(numbers); i++) {
        begin_record(&s, kind, "names and numbers");
        put_record(s.table, 1, kind, names[i / COUNT(numbers)],
                   numbers[i % COUNT(numbers)]);
        put_spans(s.table, s.records);
        if (!check_and_start(&s, attempt))
            return false;
    }
    return true;
}

static bool spans(uint32_t kind, try_scenario attempt)
{
    static const uint16_t wrong[] = {0,   1,   2,   3,   4,   5,    6,
                                     255, 256, 257, 258, 259, 65535};
    struct scenario s;
    for (size_t i = 0; i < COUNT(wrong) * 4; i++) {
        begin_record(&s, kind, "spans");
        put_span(s.table, i / COUNT(wrong) % s.records,
                 wrong[i % COUNT(wrong)]);
        if (!check_and_start(&s, attempt))
            return false;
    }
    return true;
}

/* The kind under another one, and that in a loop or not. */
static bool kinds_below(uint32_t kind, try_scenario attempt)
{
    static const uint8_t above[] = {EVERY_INPUT, EVERY_INTERNAL, FIN, LOOP};
    struct scenario s;
    for (size_t i = 0; i < COUNT(above) * 2; i++) {
        bool loop = i % 2 == 1;
        uint32_t kind_above = above[i / 2];
        begin_directed(&s, "one kind under another");
        if (loop)
            add_record(&s, LOOP, 0, 0);
        add_record(&s, kind_above,
                   kind_above <= EVERY_INTERNAL && kind_above != LOOP, 0);
        add_construct(&s, kind);
        put_spans(s.table, s.records);
        if (!check_and_start(&s, attempt))
            return false;
    }
    return true;
}

/* loop (a with b): which of them may end at once. */
static bool pair_in_a_loop(uint32_t a, uint32_t b, try_scenario attempt)
{
    static const uint8_t pairs[] = {IF, SEQUENCE, AND, OR};
    struct scenario s;
    for (size_t i = 0; i < COUNT(pairs); i++) {
        begin_directed(&s, "a pair in a loop");
        add_record(&s, LOOP, 0, 0);
        add_record(&s, pairs[i], 0, 0);
        add_construct(&s, a);
        add_construct(&s, b);
        put_spans(s.table, s.records);
        if (!check_and_start(&s, attempt))
            return false;
    }
    return true;
}

/* Every row of marks 0 and 1, and each with one byte 2. */
static bool all_marks(struct scenario *s, try_scenario attempt)
{
    uint32_t rows = 1u << s->records;
    for (uint32_t row = 0; row < rows * (s->records + 1); row++) {
        uint32_t two = row / rows;
        s->calls = 0;
        memset(&s->first, 0, sizeof s->first);
        for (uint32_t place = 0; place < s->records; place++)
            s->first.marks[place] = row % rows >> place & 1;
        if (two > 0)
            s->first.marks[two - 1] = 2;
        add_call(s, QUERY);
        add_call(s, REMAINING);
        add_call(s, REACT);
        add_call(s, RUN_LIST)->list.records = 1;
        if (!attempt(s))
            return false;
    }
    return true;
}

/* A pair of the kind, alone or in a loop. */
static bool marks_of_pairs(uint32_t kind, try_scenario attempt)
{
    static const uint8_t below[] = {NOTHING, AWAIT_INPUT, AWAIT_INTERNAL, FIN,
                                    EVERY_INPUT};
    struct scenario s;
    for (size_t i = 0; i < COUNT(below) * COUNT(below) * 2; i++) {
        uint32_t loop = (uint32_t)(i % 2);
        begin_directed(&s, "every row of marks");
        if (loop)
            add_record(&s, LOOP, 0, 0);
        add_record(&s, kind, 0, 0);
        add_construct(&s, below[i / 2 / COUNT(below)]);
        add_construct(&s, below[i / 2 % COUNT(below)]);
        put_spans(s.table, s.records);
        if (!all_marks(&s, attempt))
            return false;
    }
    return true;
}

bool directed_records(try_scenario attempt)
{
    for (uint32_t kind = 0; kind <= KINDS + 3; kind++)
        if (!names_and_numbers(kind, attempt) || !spans(kind, attempt) ||
            !kinds_below(kind, attempt))
            return false;
    for (uint32_t a = 0; a < KINDS; a++)
        for (uint32_t b = 0; b < KINDS; b++)
            if (!pair_in_a_loop(a, b, attempt))
                return false;
    for (uint32_t kind = IF; kind <= OR; kind++)
        if (children(kind) == 2 && !marks_of_pairs(kind, attempt))
            return false;
    return true;
}
