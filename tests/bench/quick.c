/* The calls of the quick interpreter: tests first, then the work. */
#include "quick.h"
#include "quick_parts.h"

static uint32_t announced_emitted(const struct counts *c)
{
    return c->emits * (c->deepest + 1);
}

static uint32_t announced_outputs(const struct counts *c)
{
    return c->outside * (c->deepest + 1) +
           c->inside * (1 + announced_emitted(c));
}

struct landarbeso_checked quick_check(const uint8_t *table, size_t table_bytes)
{
    struct landarbeso_checked answer = {0, 0, 0, 0, 0, 0};
    struct counts c;
    if (!quick_accepts(table, table_bytes, &c)) {
        struct refusal r = quick_why_table(table, table_bytes);
        answer.refused = r.number;
        answer.place = r.place;
        return answer;
    }
    answer.emitted = announced_emitted(&c);
    answer.highest = 1 + answer.emitted;
    answer.steps = (uint32_t)(5 * c.records * (c.deepest + 1) +
                              answer.highest * (c.records + 2));
    answer.outputs = announced_outputs(&c);
    return answer;
}

/* Reads the marked program as the tree at rest: sets the state of each and, or
 * on its spine. before[i] marks stand before place i. False where they do
 * not fit. The right sides still to be read wait on a stack. */
static bool read_rest(const uint8_t *table, const uint8_t *before,
                      uint8_t *state, size_t end)
{
    struct {
        uint16_t place, end;
    } waiting[MOST_RECORDS / 2];
    size_t place = 0, top = 0;
    for (;;) {
        uint32_t kind = kind_at(table, place);
        size_t second;
        bool left; /* marked there */
        if (IN_KINDS(WAITING_KINDS, kind)) {
            if (top == 0)
                return true;
            place = waiting[--top].place;
            end = waiting[top].end;
            continue;
        }
        if (kind == LOOP) {
            place++;
            continue;
        }
        second = second_child(table, place);
        left = before[second] != before[place + 1];
        if (left && before[end] != before[second]) {
            if (kind != AND && kind != OR)
                return false;
            state[place] = BOTH;
            waiting[top].place = (uint16_t)second;
            waiting[top++].end = (uint16_t)end;
        } else {
            if (kind == OR)
                return false;
            state[place] = kind == AND ? ONE : IDLE;
        }
        if (left)
            end = second;
        place = left ? place + 1 : second;
    }
}

/* Are the marked bytes among these eight 1 and on a kind that waits? */
static inline bool bytes_wait(const uint8_t *table, size_t place,
                              uint64_t eight)
{
    const uint64_t ones = 0x0101010101010101u;
    if ((eight & ~ones) != 0)
        return false;
    for (; eight != 0; eight &= eight - 1) {
        size_t at = place + (size_t)__builtin_ctzll(eight) / 8;
        if (!IN_KINDS(WAITING_KINDS, kind_at(table, at)))
            return false;
    }
    return true;
}

/* Stage 8 but for the length; finished says that there are no marks. Counts
 * the marks before each place, eight places at a time; at most every second
 * record can be marked, so that the counts stay in a byte. */
static bool marks_fit(const uint8_t *table, size_t records,
                      const uint8_t *marks, uint8_t *state, uint32_t *finished)
{
    const uint64_t ones = 0x0101010101010101u;
    uint8_t before[1 + MOST_RECORDS + 8];
    uint64_t count = 0;
    before[0] = 0;
    for (size_t place = 0; place < records; place += 8) {
        uint64_t eight = 0, sums;
        if (records - place >= 8)
            eight = eight_bytes(marks + place);
        else
            memcpy(&eight, marks + place, records - place);
        if (!bytes_wait(table, place, eight))
            return false;
        sums = (eight + count) * ones;
        memcpy(before + 1 + place, &sums, sizeof sums);
        count = sums >> 56;
    }
    *finished = count == 0;
    return count == 0 || read_rest(table, before, state, records);
}

/* Stages 1 to 9, and the plan of the program. number 0: none fails. */
static struct refusal prepare(struct reaction *x, struct counts *c,
                              const uint8_t *table, size_t table_bytes,
                              uint8_t *marks, size_t marks_bytes,
                              int32_t *variables, size_t variables_count,
                              bool with_marks)
{
    const struct refusal length = {8, 0}, variable = {9, 0}, none = {0, 0};
    if (!quick_plans(table, table_bytes, c, &x->plan))
        return quick_why_table(table, table_bytes);
    if (marks_bytes != c->records)
        return length;
    memset(x->state, IDLE, c->records);
    x->finished = 0;
    if (with_marks &&
        !marks_fit(table, c->records, marks, x->state, &x->finished))
        return quick_why_marks(table, c->records, marks);
    if (variables_count != VARIABLES)
        return variable;
    x->table = table;
    x->marks = marks;
    x->variables = variables;
    x->steps = 0;
    x->emitted = x->highest = 0;
    x->top = x->some_woken = 0;
    x->canruns[0] = 0;
    memset(x->woken, 0, sizeof x->woken);
    return none;
}

static struct landarbeso_answer refused(uint32_t number, uint32_t place)
{
    struct landarbeso_answer answer = {number, place, 0, 0, 0, 0, 0};
    return answer;
}

static struct landarbeso_answer done(const struct reaction *x,
                                     const uint8_t *out)
{
    struct landarbeso_answer answer = {
        0, 0, x->finished, x->highest, x->steps, x->emitted, 0};
    answer.outputs = (uint64_t)(x->out - out) / RECORD_BYTES;
    return answer;
}

static void add_stopping(uint64_t *sum, uint64_t more)
{
    *sum = *sum + more < more ? UINT64_MAX : *sum + more;
}

struct landarbeso_answer quick_start(const uint8_t *table, size_t table_bytes,
                                     uint8_t *marks, size_t marks_bytes,
                                     int32_t *variables,
                                     size_t variables_count, uint8_t *out,
                                     size_t out_bytes)
{
    struct reaction x;
    struct counts c;
    struct refusal r = prepare(&x, &c, table, table_bytes, marks, marks_bytes,
                               variables, variables_count, 0);
    if (r.number != 0)
        return refused(r.number, r.place);
    if (out_bytes / RECORD_BYTES < announced_outputs(&c))
        return refused(11, 0);
    memset(marks, 0, marks_bytes);
    variables[0] = 0;
    x.out = out;
    quick_run_start(&x);
    return done(&x, out);
}

struct landarbeso_answer quick_react(const uint8_t *table, size_t table_bytes,
                                     uint8_t *marks, size_t marks_bytes,
                                     int32_t *variables,
                                     size_t variables_count, uint32_t event,
                                     int32_t value, uint8_t *out,
                                     size_t out_bytes,
                                     struct landarbeso_totals *totals)
{
    struct reaction x;
    struct counts c;
    struct refusal r = prepare(&x, &c, table, table_bytes, marks, marks_bytes,
                               variables, variables_count, 1);
    if (r.number != 0)
        return refused(r.number, r.place);
    if (event - 1 >= LAST_NAME)
        return refused(10, 0);
    if (out_bytes / RECORD_BYTES < announced_outputs(&c))
        return refused(11, 0);
    variables[0] = value;
    x.out = out;
    quick_run_event(&x, event);
    add_stopping(&totals->reactions, 1);
    add_stopping(&totals->steps, x.steps);
    return done(&x, out);
}

/* The first bad record of a list, or the number of its records. */
static uint32_t first_bad_event(const uint8_t *events, uint32_t records)
{
    uint32_t i;
    for (i = 0; i < records; i++)
        if ((uint32_t)record_at(events, i) - 1 >= LAST_NAME)
            break;
    return i;
}

/* Takes the events while there is room; returns how many. */
static uint32_t take_events(struct reaction *x, const uint8_t *events,
                            uint32_t records, const uint8_t *out_end,
                            size_t announced_bytes)
{
    uint32_t i;
    for (i = 0; i < records; i++) {
        uint64_t event = record_at(events, i);
        if ((size_t)(out_end - x->out) < announced_bytes)
            break;
        x->variables[0] = (int32_t)number_of(event);
        quick_run_event(x, kind_of(event));
    }
    return i;
}

struct landarbeso_answer quick_run_list(
    const uint8_t *table, size_t table_bytes, uint8_t *marks,
    size_t marks_bytes, int32_t *variables, size_t variables_count,
    const uint8_t *events, size_t events_bytes, uint8_t *out, size_t out_bytes,
    struct landarbeso_totals *totals)
{
    struct reaction x;
    struct counts c;
    struct landarbeso_answer answer;
    uint32_t records = (uint32_t)(events_bytes / RECORD_BYTES), taken;
    struct refusal r = prepare(&x, &c, table, table_bytes, marks, marks_bytes,
                               variables, variables_count, 1);
    if (r.number != 0)
        return refused(r.number, r.place);
    if (events_bytes > MOST_LIST_BYTES)
        return refused(10, MOST_LIST_BYTES / RECORD_BYTES);
    taken = first_bad_event(events, records);
    if (taken < records || events_bytes % RECORD_BYTES != 0)
        return refused(10, taken);
    x.out = out;
    taken = take_events(&x, events, records, out + out_bytes,
                        announced_outputs(&c) * (size_t)RECORD_BYTES);
    add_stopping(&totals->reactions, taken);
    add_stopping(&totals->steps, x.steps);
    answer = done(&x, out);
    if (taken < records) {
        answer.refused = 12;
        answer.place = taken;
    }
    return answer;
}

struct landarbeso_queried quick_query(const uint8_t *table, size_t table_bytes,
                                      const uint8_t *marks, size_t marks_bytes)
{
    struct landarbeso_queried answer = {0, 0, 0, 0};
    uint8_t state[MOST_RECORDS];
    struct refusal r = {8, 0};
    struct counts c;
    uint32_t finished;
    uint64_t events = 0;
    if (!quick_accepts(table, table_bytes, &c))
        r = quick_why_table(table, table_bytes);
    else if (marks_bytes == c.records)
        r = marks_fit(table, c.records, marks, state, &finished)
                ? (struct refusal){0, 0}
                : quick_why_marks(table, c.records, marks);
    answer.refused = r.number;
    answer.place = r.place;
    if (r.number != 0)
        return answer;
    for (size_t place = 0; place < c.records; place++) {
        uint32_t kind = marks[place] ? kind_at(table, place) : NOTHING;
        if (kind == AWAIT_INPUT || kind == EVERY_INPUT)
            events |= (uint64_t)1 << name_of(record_at(table, place));
    }
    if (events != 0) {
        answer.number = (uint32_t)__builtin_popcountll(events);
        answer.lowest = (uint32_t)__builtin_ctzll(events);
    }
    return answer;
}
