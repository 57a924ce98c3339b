/* The start and one reaction: document 01's cases 4 and 6, and the refusals,
 * which leave all as it was. */
#include <string.h>

#include "calls.h"

static struct landarbeso_answer start(struct lent *l, size_t marks,
                                      size_t variables, size_t out)
{
    return landarbeso_start(case6, sizeof case6, l->marks, marks, l->variables,
                            variables, l->out, out);
}

static struct landarbeso_answer react(struct lent *l, uint32_t event,
                                      size_t variables, size_t out)
{
    return landarbeso_react(case6, sizeof case6, l->marks, 4, l->variables,
                            variables, event, 40, l->out, out, &l->totals);
}

static void start_refused(const char *what, size_t marks, size_t variables,
                          size_t out, uint32_t number)
{
    struct lent lent, before;
    fresh(&lent);
    before = lent;
    same_answer(what, start(&lent, marks, variables, out),
                (struct landarbeso_answer){number, 0, 0, 0, 0, 0, 0});
    same_lent(what, &lent, &before);
}

static void react_refused(const char *what, const uint8_t *marks,
                          uint32_t event, size_t variables, size_t out,
                          uint32_t number, uint32_t place)
{
    struct lent lent, before;
    fresh(&lent);
    memcpy(lent.marks, marks, 4);
    before = lent;
    same_answer(what, react(&lent, event, variables, out),
                (struct landarbeso_answer){number, place, 0, 0, 0, 0, 0});
    same_lent(what, &lent, &before);
}

static void case_4(void)
{
    struct lent lent, left;
    fresh(&lent);
    left = lent;
    memset(left.marks, 0, 9);
    memcpy(left.out, (const uint8_t[]){EVENT(1, 7)}, 8);
    left.variables[1] = 9;
    same_answer("case 4",
                landarbeso_start(case4, sizeof case4, lent.marks, 9,
                                 lent.variables, VARIABLES, lent.out, ROOM),
                (struct landarbeso_answer){0, 0, 1, 2, 16, 1, 1});
    same_lent("case 4", &lent, &left);
}

static void case_6(void)
{
    struct lent lent, left;
    fresh(&lent);
    lent.variables[0] = 77;
    left = lent;
    memcpy(left.marks, (const uint8_t[]){0, 1, 0, 1}, 4);
    left.variables[0] = 0;
    same_answer("case 6, start", start(&lent, 4, 64, 8),
                (struct landarbeso_answer){0, 0, 0, 1, 5, 0, 0});
    same_lent("case 6, start", &lent, &left);

    left.variables[0] = 40;
    left.totals.reactions++;
    left.totals.steps += 2;
    same_answer("case 6, event 2", react(&lent, 2, 64, 8),
                (struct landarbeso_answer){0, 0, 0, 1, 2, 0, 0});
    same_lent("case 6, event 2", &lent, &left);

    memset(left.marks, 0, 4);
    memcpy(left.out, (const uint8_t[]){EVENT(2, 40)}, 8);
    left.totals.reactions++;
    left.totals.steps += 4;
    same_answer("case 6, event 1", react(&lent, 1, 64, ROOM),
                (struct landarbeso_answer){0, 0, 1, 1, 4, 0, 1});
    same_lent("case 6, event 1", &lent, &left);

    lent.totals.reactions = left.totals.reactions = UINT64_MAX;
    lent.totals.steps = UINT64_MAX - 1;
    left.totals.steps = UINT64_MAX;
    same_answer("case 6, finished", react(&lent, 1, 64, ROOM),
                (struct landarbeso_answer){0, 0, 1, 1, 2, 0, 0});
    same_lent("case 6, finished", &lent, &left);
}

void run_cases(void)
{
    static const uint8_t waiting[4] = {0, 1, 0, 1}, over[4] = {0, 1, 0, 2},
                         alone[4] = {0, 0, 0, 1}, wrong[4] = {0, 1, 1, 1};
    case_4();
    case_6();
    start_refused("start, marks", 3, 64, ROOM, 8);
    start_refused("start, variables", 4, 63, ROOM, 9);
    start_refused("start, room", 4, 64, 7, 11);
    react_refused("react, a mark of 2", over, 1, 64, ROOM, 8, 3);
    react_refused("react, a mark on an output", wrong, 1, 64, ROOM, 8, 2);
    react_refused("react, an or marked on one side", alone, 1, 64, ROOM, 8, 0);
    react_refused("react, variables", waiting, 1, 65, ROOM, 9, 0);
    react_refused("react, event 0", waiting, 0, 64, ROOM, 10, 0);
    react_refused("react, event 64", waiting, 64, 64, ROOM, 10, 0);
    react_refused("react, room", waiting, 1, 64, 7, 11, 0);
}
