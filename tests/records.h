/* Document 01's records, for every test in C but the independent program,
 * which has its own: the limits, the kinds in their order, and how a table is
 * read and written. Numbers are little-endian, as the machine's are. */
#ifndef RECORDS_H
#define RECORDS_H

#include <stddef.h>
#include <stdint.h>
#include <string.h>

enum {
    RECORD_BYTES = 8,
    MOST_RECORDS = 256,
    MOST_LOOPS = 8,
    VARIABLES = 64,
    LAST_NAME = 63,
    MOST_LIST_BYTES = 65536
};

enum kind {
    NOTHING,
    SET,
    ADD,
    COPY,
    SUBTRACT,
    LESS,
    DIVIDE,
    OUTPUT,
    AWAIT_INPUT,
    AWAIT_INTERNAL,
    EMIT,
    BREAK,
    IF,
    SEQUENCE,
    LOOP,
    EVERY_INPUT,
    EVERY_INTERNAL,
    AND,
    OR,
    FIN,
    KINDS,
    BEGUN_LOOP = KINDS, /* from here on in a remaining program only */
    BEGUN_AND,
    BEGUN_OR
};

static inline uint32_t children(uint32_t kind)
{
    if (kind == IF || kind == SEQUENCE || kind == AND || kind == OR)
        return 2;
    return kind < LOOP || kind >= KINDS ? 0 : 1;
}

static inline uint64_t eight_bytes(const uint8_t *bytes)
{
    uint64_t eight;
    memcpy(&eight, bytes, sizeof eight);
    return eight;
}

/* A record as one number, and its parts. */
static inline uint64_t record_at(const uint8_t *table, size_t place)
{
    return eight_bytes(table + place * RECORD_BYTES);
}

static inline uint32_t kind_of(uint64_t record)
{
    return (uint8_t)record;
}

static inline uint32_t name_of(uint64_t record)
{
    return (uint8_t)(record >> 8);
}

static inline uint32_t span_of(uint64_t record)
{
    return (uint16_t)(record >> 16);
}

static inline uint32_t number_of(uint64_t record)
{
    return (uint32_t)(record >> 32);
}

static inline uint32_t kind_at(const uint8_t *table, size_t place)
{
    return table[place * RECORD_BYTES];
}

static inline uint32_t span_at(const uint8_t *table, size_t place)
{
    uint16_t span;
    memcpy(&span, table + place * RECORD_BYTES + 2, sizeof span);
    return span;
}

/* Of a record with two children, once the first one's span is right. */
static inline size_t second_child(const uint8_t *table, size_t place)
{
    return place + 1 + span_at(table, place + 1);
}

static inline void put_span(uint8_t *table, size_t place, size_t span)
{
    uint16_t bytes = (uint16_t)span;
    memcpy(table + place * RECORD_BYTES + 2, &bytes, sizeof bytes);
}

/* With a span of 1. */
static inline void put_record(uint8_t *table, size_t place, uint32_t kind,
                              uint32_t name, int32_t number)
{
    uint8_t *record = table + place * RECORD_BYTES;
    record[0] = (uint8_t)kind;
    record[1] = (uint8_t)name;
    put_span(table, place, 1);
    memcpy(record + 4, &number, sizeof number);
}

/* The spans of a whole table, from its last record back: a record's children
 * stand behind it. */
static inline void put_spans(uint8_t *table, size_t records)
{
    for (size_t place = records; place-- > 0;) {
        uint32_t below = children(kind_at(table, place));
        size_t end = place + 1;
        for (; below > 0; below--)
            end += span_at(table, end);
        put_span(table, place, end - place);
    }
}

#endif
