/* What is wrong: tables, marks, lengths, events, lists. */
#include <string.h>

#include "comparison.h"

static uint8_t likely_byte(void)
{
    static const uint8_t likely[] = {0,  1,  2,  3,  8,  9,  10, 11, 13, 14,
                                     15, 17, 18, 19, 20, 62, 63, 64, 255};
    return one_in(4) ? (uint8_t)draw(256) : likely[draw(sizeof likely)];
}

/* One kind for another with as many children. */
static void change_kind(uint8_t *record)
{
    uint32_t kind = draw(KINDS);
    if (children(kind) == children(record[0]))
        record[0] = (uint8_t)kind;
}

static void become_break(uint8_t *record)
{
    if (children(record[0]) == 0)
        put_record(record, 0, BREAK, 0, 0);
}

static void damage_record(uint8_t *record)
{
    switch (draw(8)) {
    case 0:
        record[0] = (uint8_t)draw(KINDS + 4);
        break;
    case 1:
        record[2] = (uint8_t)(record[2] + draw(5) - 2);
        break;
    case 2:
        record[3] = likely_byte();
        break;
    case 3:
        record[1] = likely_byte();
        break;
    case 4:
        record[4 + draw(4)] = likely_byte();
        break;
    case 5:
        change_kind(record);
        break;
    case 6:
        become_break(record);
        break;
    default:
        record[draw(8)] ^= (uint8_t)(1u << draw(8));
        break;
    }
}

/* The whole program under so many loops more. */
static void put_under_loops(struct scenario *s, uint32_t loops)
{
    if (s->records + loops > MOST_RECORDS)
        return;
    memmove(s->table + loops * RECORD_BYTES, s->table,
            s->records * RECORD_BYTES);
    s->records += loops;
    for (uint32_t i = 0; i < loops; i++) {
        put_record(s->table, i, LOOP, 0, 0);
        put_span(s->table, i, s->records - i);
    }
}

/* Some bytes, the length, or the nesting. */
void damage_table(struct scenario *s)
{
    uint32_t times = 1 + draw(3);
    if (one_in(12)) {
        put_under_loops(s, 1 + draw(9));
        return;
    }
    if (one_in(12)) {
        s->records = draw(s->records + 1);
        return;
    }
    for (; times > 0; times--)
        damage_record(s->table + draw(s->records) * RECORD_BYTES);
}

static void damage_length(struct call *c)
{
    static const int32_t offs[] = {-1, 1, -8, 8, -4, 3, -64, 64};
    uint32_t slice = draw(TOTALS);
    struct length *l;
    while (!takes(c->kind, slice))
        slice = (slice + 1) % TOTALS;
    l = &c->lengths[slice];
    l->how = (uint8_t)(OFF + draw(HOW_LONG - OFF));
    if (l->how == HUGE_MORE && one_in(2))
        l->how = OFF;
    for (uint32_t other = 0; other < TOTALS; other++)
        if (other != slice && l->how == HUGE_MORE &&
            c->lengths[other].how == HUGE_MORE)
            l->how = OFF;
    l->off = offs[draw(COUNT(offs))];
}

static void damage_marks(const struct scenario *s, struct call *c)
{
    bool accepted =
        independent_check(s->table, s->records * RECORD_BYTES).refused == 0;
    uint32_t times = 1 + draw(3);
    c->new_marks = 1;
    if (accepted)
        fitting_marks(s->table, c->marks);
    if (one_in(4))
        for (uint32_t i = 0; i < s->records; i++)
            c->marks[i] = waits(s->table[i * RECORD_BYTES]) && one_in(2);
    else
        for (; times > 0 && s->records > 0; times--)
            c->marks[draw(s->records)] =
                one_in(4) ? likely_byte() : (uint8_t)draw(3);
}

static void damage_event(struct call *c)
{
    static const uint32_t wrong[] = {
        0,   64,  65,    127,         128,         255,
        256, 257, 65537, 0x80000000u, 0x80000001u, 0xffffffffu};
    c->event = wrong[draw(COUNT(wrong))];
}

static uint64_t wrong_list_record(void)
{
    uint64_t right = 1 + draw(LAST_NAME);
    switch (draw(4)) {
    case 0:
        return (uint64_t)draw_number() << 32;
    case 1:
        return 64 + draw(192);
    case 2:
        return right | (uint64_t)1 << (8 + draw(24));
    default:
        return right | (uint64_t)(1 + draw(255)) << (8 + 8 * draw(3));
    }
}

static void damage_list(struct call *c)
{
    struct list *l = &c->list;
    if (one_in(8)) { /* too long, broken or not, or just not */
        l->records = MOST_LIST_RECORDS;
        c->lengths[EVENTS].how = OFF;
        c->lengths[EVENTS].off =
            one_in(2) ? (int32_t)draw(10) - 2 : (int32_t)draw(64);
        l->odd_at = (int32_t)draw(MOST_LIST_RECORDS);
        l->odd = wrong_list_record();
        return;
    }
    if (one_in(3)) {
        c->lengths[EVENTS].how = OFF;
        c->lengths[EVENTS].off = -(int32_t)draw(9);
    }
    l->odd_at = (int32_t)draw(l->records + 1);
    l->odd = wrong_list_record();
}

void damage_call(struct scenario *s, struct call *c)
{
    uint32_t choice = draw(4);
    if (choice == 0 && takes(c->kind, MARKS))
        damage_marks(s, c);
    else if (choice == 1 && c->kind == REACT)
        damage_event(c);
    else if (choice == 1 && c->kind == RUN_LIST)
        damage_list(c);
    else if (choice == 2 && takes(c->kind, OUT)) {
        c->lengths[OUT].how = OFF;
        c->lengths[OUT].off = 8 - (int32_t)draw(25);
    } else
        damage_length(c);
}
