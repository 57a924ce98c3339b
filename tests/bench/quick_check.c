/* Stages 1 to 7 in one pass over the records, for speed. A table is either
 * accepted here, or quick_refuse.c finds out why not. */
#include "quick_parts.h"

/* Spans of 1 and names and numbers of 0. */
#define BARE(kind) ((uint64_t)(kind) | 0x10000u)

/* The loops and the every or fin around the record that is looked at. */
struct around {
    uint32_t loops;              /* how many are open */
    size_t loop_end[MOST_LOOPS]; /* the place behind each open loop */
    size_t loop_place[MOST_LOOPS];
    size_t plain_end, every_end; /* behind the last every or fin; every */
    uint32_t found;              /* all loops so far, open or not */
    uint8_t found_place[MOST_RECORDS];
    bool own_break[MOST_RECORDS]; /* set for loops only */
};

static void close_loops(struct around *a, size_t place)
{
    while (a->loops > 0 && place >= a->loop_end[a->loops - 1])
        a->loops--;
}

static bool open_loop(struct around *a, size_t place, uint32_t span)
{
    close_loops(a, place);
    if (a->loops == MOST_LOOPS)
        return false;
    a->loop_end[a->loops] = place + span;
    a->loop_place[a->loops++] = place;
    a->found_place[a->found++] = (uint8_t)place;
    a->own_break[place] = false;
    return true;
}

static bool note_break(struct around *a, size_t place)
{
    close_loops(a, place);
    if (a->loops == 0)
        return false;
    a->own_break[a->loop_place[a->loops - 1]] = true;
    return true;
}

#define NEVER_AT_ONCE                                                         \
    (KIND_BIT(AWAIT_INPUT) | KIND_BIT(BREAK) | KIND_BIT(EVERY_INPUT) |        \
     KIND_BIT(EVERY_INTERNAL) | KIND_BIT(FIN))
#define BOTH_MUST_END (KIND_BIT(SEQUENCE) | KIND_BIT(AND))

static bool may_end_at_once(const uint8_t *table, const bool *own_break,
                            size_t place)
{
    for (;;) {
        uint32_t kind = kind_at(table, place), left;
        bool left_may;
        if (IN_KINDS(NEVER_AT_ONCE, kind))
            return false;
        if (kind < IF)
            return true;
        if (kind == LOOP)
            return own_break[place];
        left = kind_at(table, place + 1);
        if (left < IF)
            left_may = !IN_KINDS(NEVER_AT_ONCE, left);
        else
            left_may = may_end_at_once(table, own_break, place + 1);
        if (IN_KINDS(BOTH_MUST_END, kind) ? !left_may : left_may)
            return left_may;
        place = second_child(table, place);
    }
}

static bool loops_wait(const uint8_t *table, const struct around *a)
{
    for (uint32_t i = 0; i < a->found; i++)
        if (may_end_at_once(table, a->own_break, a->found_place[i] + 1u))
            return false;
    return true;
}

/* Span 1, a name from 1 to 63, and a number below 1, below 64, or any. */
#define NAMED_LEAF 0x00000000ffffc000u
#define NUMBER_ZERO 0xffffffff00000000u
#define NUMBER_NAMES 0xffffffc000000000u

static inline bool is_leaf(uint64_t record, uint64_t number_bits)
{
    return (record & (NAMED_LEAF | number_bits)) == 0x10000u &&
           (record & 0x3f00u) != 0;
}

/* One child, whose span fits. The last record is known to have none. */
static inline bool has_child(const uint8_t *table, size_t place,
                             uint64_t record)
{
    return span_of(record) == 1 + span_at(table, place + 1);
}

/* The place of the second child where it stands in the table, both children's
 * spans fit, and the record has none of these bits; else 0. */
static inline size_t fitting_second(const uint8_t *table, size_t records,
                                    size_t place, uint64_t record,
                                    uint64_t no_bits)
{
    size_t second = second_child(table, place);
    if ((record & no_bits) != 0 || second >= records ||
        span_of(record) != second - place + span_at(table, second))
        return 0;
    return second;
}

#define NO_NAME_NO_NUMBER 0xffffffff0000ff00u
#define NAME_0_TO_63_NO_NUMBER 0xffffffff0000c000u

/* What the pass works on. Without a plan none is made. */
struct pass {
    const uint8_t *table;
    struct counts *counts;
    struct around *around;
    struct plan *plan;
};

/* The places below that will follow, and how. */
INLINE void follow(const struct pass *p, size_t child, enum after how,
                   size_t place)
{
    if (p->plan)
        p->plan->after[child] = (uint16_t)((size_t)how << 8 | place);
}

INLINE void follow_as(const struct pass *p, size_t child, size_t place)
{
    if (p->plan)
        p->plan->after[child] = p->plan->after[place];
}

INLINE void join(const struct pass *p, uint32_t row, uint64_t record,
                 size_t place)
{
    uint32_t name = name_of(record);
    if (p->plan) {
        p->plan->next_waiter[place + 1] = p->plan->first_waiter[row][name];
        p->plan->first_waiter[row][name] = (uint16_t)(place + 1);
    }
}

INLINE bool pass_output(const struct pass *p, uint64_t record, size_t place)
{
    if (place < p->around->every_end)
        p->counts->inside++;
    else
        p->counts->outside++;
    return is_leaf(record, NUMBER_NAMES);
}

INLINE bool pass_await(const struct pass *p, uint64_t record, size_t place)
{
    if (!is_leaf(record, NUMBER_ZERO) || place < p->around->plain_end)
        return false;
    join(p, kind_of(record) - AWAIT_INPUT, record, place);
    return true;
}

INLINE bool pass_emit(const struct pass *p, uint64_t record, size_t place)
{
    p->counts->emits++;
    return is_leaf(record, NUMBER_ZERO) && place >= p->around->plain_end;
}

INLINE bool pass_break(const struct pass *p, uint64_t record, size_t place)
{
    return record == BARE(BREAK) && place >= p->around->plain_end &&
           note_break(p->around, place);
}

INLINE bool pass_if(const struct pass *p, uint64_t record, size_t place)
{
    size_t second = fitting_second(p->table, p->counts->records, place, record,
                                   NAME_0_TO_63_NO_NUMBER);
    if (second == 0)
        return false;
    follow_as(p, place + 1, place);
    follow_as(p, second, place);
    return true;
}

INLINE bool pass_sequence(const struct pass *p, uint64_t record, size_t place)
{
    size_t second = fitting_second(p->table, p->counts->records, place, record,
                                   NO_NAME_NO_NUMBER);
    if (second == 0)
        return false;
    follow_as(p, second, place);
    follow(p, place + 1, THEN, second);
    return true;
}

INLINE bool pass_trails(const struct pass *p, uint64_t record, size_t place,
                        enum after left, enum after right)
{
    size_t second = fitting_second(p->table, p->counts->records, place, record,
                                   NO_NAME_NO_NUMBER);
    if (second == 0 || place < p->around->plain_end)
        return false;
    follow(p, place + 1, left, place);
    follow(p, second, right, place);
    return true;
}

INLINE bool pass_loop(const struct pass *p, uint64_t record, size_t place)
{
    if (!has_child(p->table, place, record) ||
        (record & NO_NAME_NO_NUMBER) != 0 || place < p->around->plain_end ||
        !open_loop(p->around, place, span_of(record)))
        return false;
    if (p->around->loops > p->counts->deepest)
        p->counts->deepest = p->around->loops;
    follow(p, place + 1, AGAIN, place);
    return true;
}

INLINE bool pass_every(const struct pass *p, uint64_t record, size_t place)
{
    if (!has_child(p->table, place, record) ||
        (record & NAME_0_TO_63_NO_NUMBER) != 0 || name_of(record) == 0 ||
        place < p->around->plain_end)
        return false;
    p->around->plain_end = p->around->every_end = place + span_of(record);
    join(p, kind_of(record) - EVERY_INPUT, record, place);
    follow(p, place + 1, EVERY_BODY, place);
    return true;
}

INLINE bool pass_fin(const struct pass *p, uint64_t record, size_t place)
{
    if (!has_child(p->table, place, record) ||
        (record & NO_NAME_NO_NUMBER) != 0 || place < p->around->plain_end)
        return false;
    p->around->plain_end = place + span_of(record);
    follow(p, place + 1, FIN_BODY, place);
    return true;
}

INLINE bool pass_record(const struct pass *p, uint64_t record, size_t place)
{
    switch (kind_of(record)) {
    case NOTHING:
        return record == BARE(NOTHING);
    case SET:
    case ADD:
        return is_leaf(record, 0);
    case COPY:
    case SUBTRACT:
    case LESS:
    case DIVIDE:
        return is_leaf(record, NUMBER_NAMES);
    case OUTPUT:
        return pass_output(p, record, place);
    case AWAIT_INPUT:
    case AWAIT_INTERNAL:
        return pass_await(p, record, place);
    case EMIT:
        return pass_emit(p, record, place);
    case BREAK:
        return pass_break(p, record, place);
    case IF:
        return pass_if(p, record, place);
    case SEQUENCE:
        return pass_sequence(p, record, place);
    case LOOP:
        return pass_loop(p, record, place);
    case EVERY_INPUT:
    case EVERY_INTERNAL:
        return pass_every(p, record, place);
    case AND:
        return pass_trails(p, record, place, LEFT_OF_AND, RIGHT_OF_AND);
    case OR:
        return pass_trails(p, record, place, LEFT_OF_OR, RIGHT_OF_OR);
    case FIN:
        return pass_fin(p, record, place);
    }
    return false;
}

/* The pass. It is compiled twice, with a plan and without. */
INLINE bool pass(const uint8_t *table, struct counts *counts,
                 struct around *around, struct plan *plan)
{
    const struct pass p = {table, counts, around, plan};
    const size_t records = counts->records;
    for (size_t place = 0; place < records; place++)
        if (!pass_record(&p, record_at(table, place), place))
            return false;
    return true;
}

/* Stage 1, and of stage 2 that record 0 spans the table and that the last
 * record has no children. */
static inline bool begins_well(const uint8_t *table, size_t bytes,
                               struct counts *c, struct around *a)
{
    if (bytes - 1 >= MOST_RECORDS * RECORD_BYTES || bytes % RECORD_BYTES != 0)
        return false;
    c->records = bytes / RECORD_BYTES;
    c->emits = c->deepest = c->outside = c->inside = 0;
    a->loops = a->found = 0;
    a->plain_end = a->every_end = 0;
    return span_at(table, 0) == c->records &&
           kind_at(table, c->records - 1) < IF;
}

bool quick_accepts(const uint8_t *table, size_t bytes, struct counts *c)
{
    struct around a;
    return begins_well(table, bytes, c, &a) && pass(table, c, &a, NULL) &&
           loops_wait(table, &a);
}

bool quick_plans(const uint8_t *table, size_t bytes, struct counts *c,
                 struct plan *plan)
{
    struct around a;
    if (!begins_well(table, bytes, c, &a))
        return false;
    plan->after[0] = PROGRAM << 8;
    memset(plan->first_waiter, 0, sizeof plan->first_waiter);
    return pass(table, c, &a, plan) && loops_wait(table, &a);
}
