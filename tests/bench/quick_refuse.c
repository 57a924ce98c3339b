/* Why a table or marks are refused: stage by stage as document 01 lists
 * them, each over the whole table, without regard to speed. */
#include "quick_parts.h"

static struct refusal refusal(uint32_t number, size_t place)
{
    struct refusal r = {number, (uint32_t)place};
    return r;
}

/* Stage 2 of one record, by the spans that its children declare. */
static bool shape_is_right(const uint8_t *table, size_t records, size_t place)
{
    uint64_t record = record_at(table, place);
    uint32_t left = children(kind_of(record)), span = 1;
    size_t next = place + 1;
    if (kind_of(record) >= KINDS)
        return false;
    for (; left > 0; left--) {
        if (next >= records)
            return false;
        span += span_of(record_at(table, next));
        next = place + span;
    }
    return span_of(record) == span && (place != 0 || span == records);
}

static bool in_range(uint64_t record)
{
    uint32_t kind = kind_of(record), name = name_of(record);
    bool named = (kind >= SET && kind <= EMIT) || kind == EVERY_INPUT ||
                 kind == EVERY_INTERNAL;
    if (named ? name < 1 || name > LAST_NAME
              : name > (kind == IF ? LAST_NAME : 0))
        return false;
    if (kind == SET || kind == ADD)
        return true;
    return number_of(record) <=
           (uint32_t)(kind >= COPY && kind <= OUTPUT ? LAST_NAME : 0);
}

/* How many records of these kinds stand around a place. */
static uint32_t around(const uint8_t *table, uint32_t kinds, size_t place)
{
    uint32_t found = 0;
    for (size_t outer = 0; outer < place; outer++) {
        uint64_t record = record_at(table, outer);
        found += IN_KINDS(kinds, kind_of(record)) &&
                 place < outer + span_of(record);
    }
    return found;
}

static bool has_own_break(const uint8_t *table, size_t loop)
{
    uint32_t loops = around(table, KIND_BIT(LOOP), loop) + 1;
    size_t end = loop + span_at(table, loop);
    for (size_t place = loop + 1; place < end; place++)
        if (kind_of(record_at(table, place)) == BREAK &&
            around(table, KIND_BIT(LOOP), place) == loops)
            return true;
    return false;
}

static bool may_end(const uint8_t *table, size_t place)
{
    uint32_t kind = kind_of(record_at(table, place));
    if (kind == LOOP)
        return has_own_break(table, place);
    if (kind == IF || kind == OR)
        return may_end(table, place + 1) ||
               may_end(table, second_child(table, place));
    if (kind == SEQUENCE || kind == AND)
        return may_end(table, place + 1) &&
               may_end(table, second_child(table, place));
    return kind <= OUTPUT || kind == AWAIT_INTERNAL || kind == EMIT;
}

/* Does the record at a place fail this stage, 2 to 7? */
static bool fails(const uint8_t *table, size_t records, uint32_t stage,
                  size_t place)
{
    uint32_t kind = kind_of(record_at(table, place));
    uint32_t plain =
        KIND_BIT(EVERY_INPUT) | KIND_BIT(EVERY_INTERNAL) | KIND_BIT(FIN);
    switch (stage) {
    case 2:
        return !shape_is_right(table, records, place);
    case 3:
        return !in_range(record_at(table, place));
    case 4:
        return kind == BREAK && around(table, KIND_BIT(LOOP), place) == 0;
    case 5:
        return !IN_KINDS(PLAIN_KINDS, kind) && around(table, plain, place) > 0;
    case 6:
        return kind == LOOP &&
               around(table, KIND_BIT(LOOP), place) >= MOST_LOOPS;
    default:
        return kind == LOOP && may_end(table, place + 1);
    }
}

struct refusal quick_why_table(const uint8_t *table, size_t bytes)
{
    size_t records = bytes / RECORD_BYTES;
    if (bytes == 0 || bytes % RECORD_BYTES != 0 ||
        bytes > MOST_RECORDS * RECORD_BYTES)
        return refusal(1, 0);
    for (uint32_t stage = 2; stage <= 7; stage++)
        for (size_t place = 0; place < records; place++)
            if (fails(table, records, stage, place))
                return refusal(stage, place);
    return refusal(0, 0);
}

static bool marked(const uint8_t *marks, size_t from, size_t end)
{
    for (; from < end; from++)
        if (marks[from] != 0)
            return true;
    return false;
}

static bool construct_fits(const uint8_t *table, const uint8_t *marks,
                           size_t place)
{
    uint64_t record = record_at(table, place);
    uint32_t kind = kind_of(record);
    size_t second;
    bool left, right;
    if (kind != SEQUENCE && kind != IF && kind != OR)
        return true;
    second = second_child(table, place);
    left = marked(marks, place + 1, second);
    right = marked(marks, second, place + span_of(record));
    return kind == OR ? left == right : !(left && right);
}

struct refusal quick_why_marks(const uint8_t *table, size_t records,
                               const uint8_t *marks)
{
    for (size_t place = 0; place < records; place++)
        if (marks[place] > 1 ||
            (marks[place] == 1 &&
             !IN_KINDS(WAITING_KINDS, kind_of(record_at(table, place)))))
            return refusal(8, place);
    for (size_t place = 0; place < records; place++)
        if (!construct_fits(table, marks, place))
            return refusal(8, place);
    return refusal(0, 0);
}
