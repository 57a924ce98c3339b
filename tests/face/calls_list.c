/* A list of events: document 01's case 5, a list stopped for room, and the
 * refusals, which leave all as it was. */
#include <string.h>

#include "calls.h"

static const uint8_t waiting[4] = {0, 0, 1, 0};

static struct landarbeso_answer run(struct lent *l, const uint8_t *events,
                                    size_t bytes, size_t out)
{
    return landarbeso_run_list(case5, sizeof case5, l->marks, 4, l->variables,
                               VARIABLES, events, bytes, l->out, out,
                               &l->totals);
}

static void ready(struct lent *l)
{
    fresh(l);
    memcpy(l->marks, waiting, 4);
}

static void list_refused(const char *what, const uint8_t *events, size_t bytes,
                         uint32_t place)
{
    struct lent lent, before;
    ready(&lent);
    before = lent;
    same_answer(what, run(&lent, events, bytes, ROOM),
                (struct landarbeso_answer){10, place, 0, 0, 0, 0, 0});
    same_lent(what, &lent, &before);
}

static void taken(void)
{
    static const uint8_t events[] = {EVENT(1, -5), EVENT(2, 6), EVENT(1, 7),
                                     EVENT(1, 8)};
    struct lent lent, left;
    ready(&lent);
    left = lent;
    same_answer("an empty list", run(&lent, NULL, 0, 0),
                (struct landarbeso_answer){0, 0, 0, 0, 0, 0, 0});
    same_lent("an empty list", &lent, &left);

    /* Room for three: before the fourth event one is left, and two are
     * announced. */
    memcpy(left.out, (const uint8_t[]){EVENT(1, -5), EVENT(1, 7)}, 16);
    left.variables[0] = 7;
    left.totals.reactions += 3;
    left.totals.steps += 14;
    same_answer("a list stopped for room",
                run(&lent, events, sizeof events, 31),
                (struct landarbeso_answer){12, 3, 0, 1, 14, 0, 2});
    same_lent("a list stopped for room", &lent, &left);

    memcpy(left.out, (const uint8_t[]){EVENT(1, 8)}, 8);
    left.variables[0] = 8;
    left.totals.reactions += 1;
    left.totals.steps += 6;
    same_answer("the rest of the list",
                run(&lent, events + 3 * RECORD_BYTES, RECORD_BYTES, 31),
                (struct landarbeso_answer){0, 0, 0, 1, 6, 0, 1});
    same_lent("the rest of the list", &lent, &left);
}

void list_cases(void)
{
    static const uint8_t nought[] = {EVENT(1, 1), EVENT(0, 1)},
                         dirty[] = {EVENT(1, 1), RECORD(1, 0, 256, 0),
                                    EVENT(0, 0)};
    static uint8_t large[LANDARBESO_MOST_LIST_BYTES + 8];
    taken();
    list_refused("a list with event 0", nought, sizeof nought, 1);
    list_refused("a list with a byte that is not zero", dirty, sizeof dirty,
                 1);
    list_refused("a list with a broken last record", nought, 11, 1);
    list_refused("a list too long", large, sizeof large, 8192);
}
