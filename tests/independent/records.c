/* Records, and the stages 1 to 3 of the check. */
#include "internal.h"

struct refusal ind_accepted(void)
{
    struct refusal r = {0, 0};
    return r;
}

struct refusal ind_refuse(uint32_t number, size_t place)
{
    struct refusal r;
    r.number = number;
    r.place = (uint32_t)place;
    return r;
}

/* The signed number of 32 bits that has these bits. */
int32_t ind_signed(uint32_t bits)
{
    if (bits <= (uint32_t)INT32_MAX)
        return (int32_t)bits;
    return -1 - (int32_t)(~bits);
}

/* "bytes 4-7 number (signed). Little-endian." */
int32_t ind_read_number(const uint8_t *bytes)
{
    return ind_signed((uint32_t)bytes[0] | (uint32_t)bytes[1] << 8 |
                      (uint32_t)bytes[2] << 16 | (uint32_t)bytes[3] << 24);
}

void ind_write_number(uint8_t *bytes, int32_t number)
{
    uint32_t bits = (uint32_t)number;
    for (int i = 0; i < 4; i++)
        bytes[i] = (uint8_t)(bits >> (8 * i));
}

/* "Kinds 0 to 11 have no children, 12 has two"; the kinds table has the
 * rest. */
unsigned ind_children(uint32_t kind)
{
    switch (kind) {
    case IF:
    case SEQUENCE:
    case AND:
    case OR:
        return 2;
    case LOOP:
    case EVERY_INPUT:
    case EVERY_INTERNAL:
    case FIN:
        return 1;
    default:
        return 0;
    }
}

/* "The first child stands at the next place, the second after the first one's
 * span." */
size_t ind_second_child(const struct program *p, size_t place)
{
    return place + 1 + p->records[place + 1].span;
}

/* 1: "length 0, not a multiple of 8, or over 2,048 bytes", place 0. */
static struct refusal stage_1(size_t table_bytes)
{
    if (table_bytes == 0 || table_bytes % RECORD_BYTES != 0 ||
        table_bytes > (size_t)MOST_RECORDS * RECORD_BYTES)
        return ind_refuse(1, 0);
    return ind_accepted();
}

/* "Byte 0 kind, byte 1 name, bytes 2-3 span, bytes 4-7 number (signed)." */
static void decode(const uint8_t *table, size_t table_bytes, struct program *p)
{
    p->count = table_bytes / RECORD_BYTES;
    for (size_t place = 0; place < p->count; place++) {
        const uint8_t *bytes = table + place * RECORD_BYTES;
        struct record *r = &p->records[place];
        r->kind = bytes[0];
        r->name = bytes[1];
        r->span = (uint32_t)bytes[2] | (uint32_t)bytes[3] << 8;
        r->number = ind_read_number(bytes + 4);
    }
}

/* "The span counts the record and all below it: 1, 1 + the child's, or 1 +
 * both."  The children's spans are those that they declare. */
static bool span_as_above(const struct program *p, size_t place)
{
    const struct record *r = &p->records[place];
    size_t first = place + 1, second, span = 1;
    if (ind_children(r->kind) >= 1) {
        if (first >= p->count)
            return false; /* a child past the end */
        span += p->records[first].span;
    }
    if (ind_children(r->kind) == 2) {
        second = ind_second_child(p, place);
        if (second >= p->count)
            return false; /* a child past the end */
        span += p->records[second].span;
    }
    return r->span == span;
}

/* 2: "kind over 19, a span not as above, a child past the end, record 0 not
 * spanning all", place the record. */
static struct refusal stage_2(const struct program *p)
{
    for (size_t place = 0; place < p->count; place++) {
        const struct record *r = &p->records[place];
        if (r->kind > LAST_KIND || !span_as_above(p, place) ||
            (place == 0 && r->span != p->count))
            return ind_refuse(2, place);
    }
    return ind_accepted();
}

struct bounds {
    uint32_t name_from, name_to;
    int32_t number_from, number_to;
};

/* The columns "name" and "number" of the kinds table. */
static const struct bounds kinds_table[LAST_KIND + 1] = {
    {0, 0, 0, 0},                         /* 0 nothing */
    {1, LAST_NAME, INT32_MIN, INT32_MAX}, /* 1 v := number */
    {1, LAST_NAME, INT32_MIN, INT32_MAX}, /* 2 v := v + number */
    {1, LAST_NAME, 0, LAST_NAME},         /* 3 v := w */
    {1, LAST_NAME, 0, LAST_NAME},         /* 4 v := v - w */
    {1, LAST_NAME, 0, LAST_NAME},         /* 5 v := 1 if v < w, else 0 */
    {1, LAST_NAME, 0, LAST_NAME},         /* 6 v := v / w */
    {1, LAST_NAME, 0, LAST_NAME},         /* 7 output o of w */
    {1, LAST_NAME, 0, 0},                 /* 8 await input */
    {1, LAST_NAME, 0, 0},                 /* 9 await internal */
    {1, LAST_NAME, 0, 0},                 /* 10 emit internal */
    {0, 0, 0, 0},                         /* 11 break */
    {0, LAST_NAME, 0, 0},                 /* 12 if v */
    {0, 0, 0, 0},                         /* 13 sequence */
    {0, 0, 0, 0},                         /* 14 loop */
    {1, LAST_NAME, 0, 0},                 /* 15 every input */
    {1, LAST_NAME, 0, 0},                 /* 16 every internal */
    {0, 0, 0, 0},                         /* 17 and */
    {0, 0, 0, 0},                         /* 18 or */
    {0, 0, 0, 0},                         /* 19 fin */
};

/* 3: "name or number outside the kinds table", place the record. */
static struct refusal stage_3(const struct program *p)
{
    for (size_t place = 0; place < p->count; place++) {
        const struct record *r = &p->records[place];
        const struct bounds *b = &kinds_table[r->kind];
        if (r->name < b->name_from || r->name > b->name_to ||
            r->number < b->number_from || r->number > b->number_to)
            return ind_refuse(3, place);
    }
    return ind_accepted();
}

struct refusal ind_stages_1_to_3(const uint8_t *table, size_t table_bytes,
                                 struct program *p)
{
    struct refusal r = stage_1(table_bytes);
    if (r.number != 0)
        return r;
    decode(table, table_bytes, p);
    r = stage_2(p);
    if (r.number != 0)
        return r;
    return stage_3(p);
}
