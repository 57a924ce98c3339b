/* One call on both sides: the archive's and the independent program's. */
#include <string.h>

#include "comparison.h"
#include "landarbeso.h"

#define BYTES(side, slice) (side)[slice].bytes, (side)[slice].count
#define NUMBERS(side)                                                         \
    (int32_t *)(void *)(side)[VARIABLE].bytes, (side)[VARIABLE].count

static const char *const call_names[CALLS] = {
    "check", "start", "react", "run_list", "query", "remaining"};
static const char *const field_names[FIELDS] = {
    "the answer's refused", "the answer's place",  "the answer's finished",
    "the answer's highest", "the answer's steps",  "the answer's emitted",
    "the answer's outputs", "the answer's number", "the answer's lowest",
    "the answer's records"};

const char *call_name(uint32_t kind)
{
    return call_names[kind];
}

const char *field_name(uint32_t field)
{
    return field_names[field];
}

/* Is a call lent this slice? */
bool takes(uint32_t kind, uint32_t slice)
{
    static const uint32_t slices[CALLS] = {
        1u << TABLE,
        1u << TABLE | 1u << MARKS | 1u << VARIABLE | 1u << OUT,
        1u << TABLE | 1u << MARKS | 1u << VARIABLE | 1u << OUT | 1u << TOTALS,
        1u << TABLE | 1u << MARKS | 1u << VARIABLE | 1u << OUT | 1u << TOTALS |
            1u << EVENTS,
        1u << TABLE | 1u << MARKS,
        1u << TABLE | 1u << MARKS | 1u << OUT};
    return slices[kind] >> slice & 1u;
}

/* Which refusals a call can give, as bits; 0 is none. */
bool can_refuse(uint32_t kind, uint32_t refusal)
{
    static const uint32_t refusals[CALLS] = {
        0x0ff,  /* the check 1 to 7 */
        0xbff,  /* a start 1 to 9, 11 */
        0xfff,  /* a reaction 1 to 11 */
        0x17ff, /* a list 1 to 10, 12 */
        0x1ff,  /* a query 1 to 8 */
        0x9ff}; /* the remaining program 1 to 8, 11 */
    return refusal < INDEPENDENT_REFUSALS && (refusals[kind] >> refusal & 1u);
}

/* The fields of an answer, by either side's struct. */
#define FROM_REFUSAL(to, from)                                                \
    do {                                                                      \
        (to)->field[REFUSED] = (from).refused;                                \
        (to)->field[PLACE] = (from).place;                                    \
    } while (0)

#define FROM_CHECKED(to, from)                                                \
    do {                                                                      \
        FROM_REFUSAL(to, from);                                               \
        (to)->field[EMITTED] = (from).emitted;                                \
        (to)->field[HIGHEST] = (from).highest;                                \
        (to)->field[STEPS] = (from).steps;                                    \
        (to)->field[OUTPUTS] = (from).outputs;                                \
    } while (0)

#define FROM_ANSWER(to, from)                                                 \
    do {                                                                      \
        FROM_CHECKED(to, from);                                               \
        (to)->field[FINISHED] = (from).finished;                              \
    } while (0)

#define FROM_QUERIED(to, from)                                                \
    do {                                                                      \
        FROM_REFUSAL(to, from);                                               \
        (to)->field[NUMBER] = (from).number;                                  \
        (to)->field[LOWEST] = (from).lowest;                                  \
    } while (0)

#define FROM_WRITTEN(to, from)                                                \
    do {                                                                      \
        FROM_REFUSAL(to, from);                                               \
        (to)->field[RECORDS] = (from).records;                                \
    } while (0)

static void do_check(struct lending *l, struct difference *d)
{
    struct landarbeso_checked a = landarbeso_check(BYTES(l->ours, TABLE));
    struct independent_checked b = independent_check(BYTES(l->theirs, TABLE));
    FROM_CHECKED(&d->ours, a);
    FROM_CHECKED(&d->theirs, b);
}

static void do_start(struct lending *l, struct difference *d)
{
    struct landarbeso_answer a =
        landarbeso_start(BYTES(l->ours, TABLE), BYTES(l->ours, MARKS),
                         NUMBERS(l->ours), BYTES(l->ours, OUT));
    struct independent_answer b =
        independent_start(BYTES(l->theirs, TABLE), BYTES(l->theirs, MARKS),
                          NUMBERS(l->theirs), BYTES(l->theirs, OUT));
    FROM_ANSWER(&d->ours, a);
    FROM_ANSWER(&d->theirs, b);
}

static void do_react(struct lending *l, struct difference *d,
                     const struct call *c)
{
    struct landarbeso_answer a =
        landarbeso_react(BYTES(l->ours, TABLE), BYTES(l->ours, MARKS),
                         NUMBERS(l->ours), c->event, c->value,
                         BYTES(l->ours, OUT), (void *)l->ours[TOTALS].bytes);
    struct independent_answer b = independent_react(
        BYTES(l->theirs, TABLE), BYTES(l->theirs, MARKS), NUMBERS(l->theirs),
        c->event, c->value, BYTES(l->theirs, OUT),
        (void *)l->theirs[TOTALS].bytes);
    FROM_ANSWER(&d->ours, a);
    FROM_ANSWER(&d->theirs, b);
}

static void do_run_list(struct lending *l, struct difference *d)
{
    struct landarbeso_answer a = landarbeso_run_list(
        BYTES(l->ours, TABLE), BYTES(l->ours, MARKS), NUMBERS(l->ours),
        BYTES(l->ours, EVENTS), BYTES(l->ours, OUT),
        (void *)l->ours[TOTALS].bytes);
    struct independent_answer b = independent_run_list(
        BYTES(l->theirs, TABLE), BYTES(l->theirs, MARKS), NUMBERS(l->theirs),
        BYTES(l->theirs, EVENTS), BYTES(l->theirs, OUT),
        (void *)l->theirs[TOTALS].bytes);
    FROM_ANSWER(&d->ours, a);
    FROM_ANSWER(&d->theirs, b);
}

static void do_query(struct lending *l, struct difference *d)
{
    struct landarbeso_queried a =
        landarbeso_query(BYTES(l->ours, TABLE), BYTES(l->ours, MARKS));
    struct independent_query b =
        independent_query(BYTES(l->theirs, TABLE), BYTES(l->theirs, MARKS));
    FROM_QUERIED(&d->ours, a);
    FROM_QUERIED(&d->theirs, b);
}

static void do_remaining(struct lending *l, struct difference *d)
{
    struct landarbeso_written a = landarbeso_remaining(
        BYTES(l->ours, TABLE), BYTES(l->ours, MARKS), BYTES(l->ours, OUT));
    struct independent_remaining b =
        independent_remaining(BYTES(l->theirs, TABLE), BYTES(l->theirs, MARKS),
                              BYTES(l->theirs, OUT));
    FROM_WRITTEN(&d->ours, a);
    FROM_WRITTEN(&d->theirs, b);
}

void call_both(struct lending *l, struct difference *d, const struct call *c)
{
    switch (c->kind) {
    case CHECK:
        do_check(l, d);
        break;
    case START:
        do_start(l, d);
        break;
    case REACT:
        do_react(l, d, c);
        break;
    case RUN_LIST:
        do_run_list(l, d);
        break;
    case QUERY:
        do_query(l, d);
        break;
    default:
        do_remaining(l, d);
        break;
    }
}

static const char *same_answer(const struct difference *d, uint32_t kind)
{
    for (uint32_t i = 0; i < FIELDS; i++)
        if (d->ours.field[i] != d->theirs.field[i])
            return field_names[i];
    if (!can_refuse(kind, (uint32_t)d->theirs.field[REFUSED]))
        return "a refusal that this call can give";
    return NULL;
}

/* d->check is NULL where nothing differs; then the state has gone on. */
void compare_call(const struct scenario *s, const struct call *c,
                  struct state *state, struct difference *d, bool counted)
{
    struct lending l;
    memset(d, 0, sizeof *d);
    lend(&l, s, c, state);
    for (uint32_t slice = 0; slice < SLICES; slice++)
        d->lengths[slice] = l.before[slice].count;
    d->check = call_watched(&l, d, c);
    if (d->check == NULL)
        d->check = same_answer(d, c->kind);
    if (d->check == NULL)
        d->check = same_memory(&l, d, c);
    if (d->check == NULL && counted)
        cover(s, c, &l, &d->theirs);
    if (d->check == NULL)
        take_back(&l, state);
}
