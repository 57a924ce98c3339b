/* The rules of a reaction. The tree is kept as one state number for each
 * record, changed in place; steps are counted as the rules would take them.
 *
 * What can step next is always the leftmost of: the @canruns of the present
 * level, and the places woken and not yet gone on. Left to right is the order
 * of places. The @canruns are a stack: a new one stands left of all others of
 * its level, and left of all the woken, since it is made where the trails run.
 * The woken are a set of bits. A place that a clear has taken away is still
 * on the stack or in the set, but its state says so. */
#include "quick_parts.h"

enum { NOWHERE = 256 };

static void enter(struct reaction *x, size_t place);

static inline uint32_t as_value(const struct reaction *x, uint32_t w)
{
    return (uint32_t)x->variables[w];
}

static inline uint32_t is_less(const struct reaction *x, uint32_t v,
                               uint32_t w)
{
    return x->variables[v] < x->variables[w];
}

/* Towards zero; by 0 it gives 0. */
static inline uint32_t quotient(const struct reaction *x, uint32_t v,
                                uint32_t w)
{
    int32_t by = x->variables[w];
    if (by == 0)
        return 0;
    if (by == -1)
        return 0u - as_value(x, v);
    return (uint32_t)(x->variables[v] / by);
}

static inline void put_output(struct reaction *x, uint64_t record)
{
    uint64_t output =
        name_of(record) | (uint64_t)as_value(x, number_of(record)) << 32;
    memcpy(x->out, &output, sizeof output);
    x->out += sizeof output;
}

/* Runs clear of the construct at a place to its end: one step joins the two
 * sides of each @and and @or in it, and each fin's body runs. */
static __attribute__((noinline)) void clear(struct reaction *x, size_t place)
{
    size_t end = place + span_at(x->table, place);
    while (place < end) {
        if (end - place >= 8 && (eight_bytes(x->marks + place) |
                                 eight_bytes(x->state + place)) == 0) {
            place += 8;
            continue;
        }
        x->steps += x->state[place] == BOTH;
        x->state[place] = IDLE;
        if (x->marks[place]) {
            x->marks[place] = 0;
            if (kind_at(x->table, place) == FIN)
                enter(x, place + 1);
        }
        place++;
    }
}

static inline void clear_other_side(struct reaction *x, size_t how,
                                    size_t place)
{
    if (how == LEFT_OF_AND || how == LEFT_OF_OR)
        clear(x, second_child(x->table, place));
    else
        clear(x, place + 1);
}

/* Does what follows other than in a sequence; as leave. */
static size_t leave_construct(struct reaction *x, size_t after)
{
    for (;;) {
        size_t how = after >> 8, place = after & 0xff;
        switch (how) {
        case THEN:
            x->steps++;
            return place;
        case AGAIN:
            x->steps += 2;
            return place + 1;
        case LEFT_OF_AND:
        case RIGHT_OF_AND:
            if (x->state[place] == BOTH) {
                x->steps++;
                x->state[place] = ONE;
                return NOWHERE;
            }
            x->state[place] = IDLE;
            break;
        case LEFT_OF_OR:
        case RIGHT_OF_OR:
            x->steps++;
            x->state[place] = IDLE;
            clear_other_side(x, how, place);
            break;
        case EVERY_BODY:
            x->steps++;
            x->marks[place] = 1;
            return NOWHERE;
        case FIN_BODY:
            return NOWHERE;
        default:
            x->finished = 1;
            return NOWHERE;
        }
        after = x->plan.after[place];
    }
}

/* The construct at a place has become @nop. Returns the place where its trail
 * goes on, or NOWHERE. */
static inline size_t leave(struct reaction *x, size_t place)
{
    size_t after = x->plan.after[place];
    if (after >> 8 != THEN)
        return leave_construct(x, after);
    x->steps++;
    return after;
}

/* The construct at a place has become break. What follows the right of a
 * sequence is what follows the sequence. */
static size_t break_out(struct reaction *x, size_t place)
{
    for (;;) {
        size_t how = x->plan.after[place] >> 8u;
        place = x->plan.after[place] & 0xff;
        if (how == THEN) {
            x->steps++;
        } else if (how == AGAIN) {
            x->steps++;
            return leave(x, place);
        } else {
            if (x->state[place] == BOTH) {
                x->steps += 2;
                clear_other_side(x, how, place);
            }
            x->state[place] = IDLE;
        }
    }
}

static inline void wake(struct reaction *x, uint32_t row, uint32_t event)
{
    size_t waiter = x->plan.first_waiter[row][event];
    for (; waiter != 0; waiter = x->plan.next_waiter[waiter]) {
        size_t place = waiter - 1;
        if (x->marks[place]) {
            x->marks[place] = 0;
            x->state[place] = WOKEN;
            x->woken[place / 64] |= (uint64_t)1 << place % 64;
            x->some_woken |= 1u << (uint32_t)place / 64;
        }
    }
}

static inline void put_canrun(struct reaction *x, size_t place,
                              enum state state)
{
    x->state[place] = (uint8_t)state;
    x->canruns[++x->top] = x->level << 8 | (uint32_t)place;
}

/* An emit and the push of its event. Where nobody can run on the new level,
 * the pop and the @canrun are taken at once. */
static inline size_t emit(struct reaction *x, size_t place, uint32_t event)
{
    x->emitted++;
    x->steps += 2;
    if (x->level == x->highest)
        x->highest++;
    wake(x, 1, event);
    if (x->some_woken == 0) {
        x->steps += 2;
        return leave(x, place);
    }
    put_canrun(x, place, RESUMED);
    x->level++;
    return NOWHERE;
}

/* Each of these takes one construct, and answers as leave. */
static inline size_t assign(struct reaction *x, size_t place, uint32_t name,
                            uint32_t value)
{
    x->variables[name] = (int32_t)value;
    x->steps++;
    return leave(x, place);
}

static inline size_t take_output(struct reaction *x, size_t place,
                                 uint64_t record)
{
    put_output(x, record);
    x->steps++;
    return leave(x, place);
}

static inline size_t take_if(struct reaction *x, size_t place, uint32_t name)
{
    x->steps++;
    return x->variables[name] != 0 ? place + 1 : second_child(x->table, place);
}

static inline size_t take_and_or(struct reaction *x, size_t place)
{
    x->steps++;
    x->state[place] = BOTH;
    put_canrun(x, second_child(x->table, place), PENDING);
    return place + 1;
}

INLINE size_t take(struct reaction *x, size_t place, uint64_t record)
{
    const uint32_t name = name_of(record), number = number_of(record);
    switch (kind_of(record)) {
    case NOTHING:
        return leave(x, place);
    case SET:
        return assign(x, place, name, number);
    case ADD:
        return assign(x, place, name, as_value(x, name) + number);
    case COPY:
        return assign(x, place, name, as_value(x, number));
    case SUBTRACT:
        return assign(x, place, name, as_value(x, name) - as_value(x, number));
    case LESS:
        return assign(x, place, name, is_less(x, name, number));
    case DIVIDE:
        return assign(x, place, name, quotient(x, name, number));
    case OUTPUT:
        return take_output(x, place, record);
    case EMIT:
        return emit(x, place, name);
    case BREAK:
        return break_out(x, place);
    case IF:
        return take_if(x, place, name);
    case LOOP:
        x->steps++;
        return place + 1;
    case AND:
    case OR:
        return take_and_or(x, place);
    default: /* an await, every or fin */
        x->marks[place] = 1;
        return NOWHERE;
    }
}

/* Runs a trail from the construct at a place on until it is blocked or has
 * come to its end. Entering a sequence is entering its left. */
INLINE void run_trail(struct reaction *x, size_t place)
{
    while (place != NOWHERE) {
        uint64_t record = record_at(x->table, place);
        while (kind_of(record) == SEQUENCE)
            record = record_at(x->table, ++place);
        place = take(x, place, record);
    }
}

/* A trail within a clear. */
static __attribute__((noinline)) void enter(struct reaction *x, size_t place)
{
    run_trail(x, place);
}

/* Where a place that was woken goes on. */
static inline size_t from_woken(struct reaction *x, size_t place)
{
    if (x->state[place] != WOKEN)
        return NOWHERE;
    x->state[place] = IDLE;
    if (kind_at(x->table, place) >= EVERY_INPUT)
        return place + 1;
    return leave(x, place);
}

/* Where a place with a @canrun of the present level goes on. */
static inline size_t from_canrun(struct reaction *x, size_t place)
{
    uint32_t state = x->state[place];
    if (state != PENDING && state != RESUMED)
        return NOWHERE;
    x->state[place] = IDLE;
    x->steps++;
    if (state == RESUMED)
        return leave(x, place);
    x->steps++;
    return place;
}

/* Takes the leftmost place out of the woken; there is one. */
static inline size_t take_woken(struct reaction *x)
{
    size_t word = (size_t)__builtin_ctz(x->some_woken);
    uint64_t places = x->woken[word];
    x->woken[word] = places & (places - 1);
    if (x->woken[word] == 0)
        x->some_woken &= x->some_woken - 1;
    return word * 64 + (size_t)__builtin_ctzll(places);
}

/* Runs from a place, then what else can step until none can at level 1, and
 * pops to level 0. */
static __attribute__((noinline)) void run(struct reaction *x, size_t place)
{
    for (;;) {
        uint32_t canrun;
        run_trail(x, place);
        place = NOWHERE;
        canrun = x->canruns[x->top] - (x->level << 8);
        if (canrun < MOST_RECORDS) { /* it is of the present level */
            x->top--;
            place = from_canrun(x, canrun);
        } else if (x->some_woken != 0) {
            place = from_woken(x, take_woken(x));
        } else {
            x->steps++;
            if (--x->level == 0)
                return;
        }
    }
}

static inline void push_first(struct reaction *x)
{
    x->steps++;
    x->level = 1;
    if (x->highest == 0)
        x->highest = 1;
}

void quick_run_start(struct reaction *x)
{
    push_first(x);
    run(x, 0);
}

void quick_run_event(struct reaction *x, uint32_t event)
{
    push_first(x);
    wake(x, 0, event);
    if (x->some_woken != 0)
        run(x, NOWHERE);
    else
        x->steps++; /* the pop */
}
