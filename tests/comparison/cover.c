/* What was met: each refusal of each call, each rule, each kind, and the
 * situations that the comparison is there for. A zero is a failure. */
#include <inttypes.h>
#include <stdio.h>

#include "lend.h"

enum situation {
    ROOM_SHORT,
    ROOM_EXACT,
    ROOM_BROKEN,
    NULL_TABLE,
    NULL_MARKS,
    NULL_VARIABLES,
    NULL_EVENTS,
    NULL_OUT,
    HUGE_TABLE,
    HUGE_MARKS,
    HUGE_VARIABLES,
    HUGE_EVENTS,
    HUGE_OUT,
    REACTIONS_STOP,
    STEPS_STOP,
    MOST_EVENTS,
    LIST_TOO_LONG,
    LIST_BAD_BEHIND,
    LIST_BROKEN,
    EMPTY_LIST,
    TWELVE_AT_ONCE,
    TWELVE_LATER,
    LARGEST,
    DEEPEST,
    NEW_MARKS,
    MARKS_BEHIND,
    FINISHED_REACTION,
    HIGH_LEVEL,
    MANY_STEPS,
    ODD_ADDRESS,
    FENCED,
    NOTHING_AWAITED,
    MANY_AWAITED,
    LONGER_REMAINING,
    SITUATIONS
};

static const char *const situation_names[SITUATIONS] = {
    "room one record short",
    "room exact",
    "room exact, and bytes that make no whole record",
    "null table of length 0",
    "null marks of length 0",
    "null variables of length 0",
    "null events of length 0",
    "null room of length 0",
    "huge table",
    "huge marks",
    "huge variables",
    "huge events",
    "huge room",
    "total of reactions stops at the top",
    "total of steps stops at the top",
    "8,192 events taken",
    "a list over 65,536 bytes",
    "a bad record that is not a list's first",
    "a list's last record broken",
    "an empty list",
    "a list stopped before its first event",
    "a list stopped later",
    "256 records accepted",
    "eight loops accepted",
    "a reaction from marks that were drawn",
    "marks refused behind place 0",
    "a reaction of a finished program",
    "a level above 9",
    "over 500 steps in one call",
    "slices at odd addresses",
    "slices that end where memory ends",
    "a query with no event",
    "a query with over 9 events",
    "a remaining program longer than the table"};

static uint64_t met[SITUATIONS], refusals[CALLS][INDEPENDENT_REFUSALS];

static void meet(enum situation situation, bool holds)
{
    met[situation] += holds;
}

static void cover_slices(const struct call *c, const struct lending *l)
{
    for (uint32_t slice = 0; slice < TOTALS; slice++) {
        meet(NULL_TABLE + slice,
             takes(c->kind, slice) && l->before[slice].bytes == NULL);
        meet(HUGE_TABLE + slice, l->before[slice].huge);
    }
    meet(ODD_ADDRESS, c->shift % 2 == 1 && !c->fenced);
    meet(FENCED, c->fenced);
}

static void cover_room(const struct call *c, const struct answer *a)
{
    const struct length *room = &c->lengths[OUT];
    if (!takes(c->kind, OUT))
        return;
    meet(ROOM_SHORT, a->field[REFUSED] == 11 && room->how == OFF &&
                         room->off < 0 && room->off >= -RECORD_BYTES);
    meet(ROOM_EXACT, a->field[REFUSED] == 0 && room->how == RIGHT &&
                         a->field[OUTPUTS] + a->field[RECORDS] > 0);
    meet(ROOM_BROKEN, a->field[REFUSED] == 0 && room->how == OFF &&
                          room->off > 0 && room->off < RECORD_BYTES);
}

static void cover_list(const struct lending *l, const struct answer *a)
{
    uint64_t place = a->field[PLACE], bytes = l->before[EVENTS].length;
    bool ten = a->field[REFUSED] == 10, done = a->field[REFUSED] == 0;
    meet(MOST_EVENTS, done && bytes == MOST_LIST_RECORDS * RECORD_BYTES);
    meet(LIST_TOO_LONG, ten && place == MOST_LIST_RECORDS);
    meet(LIST_BAD_BEHIND, ten && place > 0 && place < bytes / RECORD_BYTES);
    meet(LIST_BROKEN, ten && place == bytes / RECORD_BYTES);
    meet(EMPTY_LIST, done && bytes == 0);
    meet(TWELVE_AT_ONCE, a->field[REFUSED] == 12 && place == 0);
    meet(TWELVE_LATER, a->field[REFUSED] == 12 && place > 0);
}

static bool stops(const struct lending *l, uint32_t which)
{
    const uint64_t *before = (const void *)l->before[TOTALS].place;
    const uint64_t *after = (const void *)l->theirs[TOTALS].place;
    return before[which] < after[which] && after[which] == UINT64_MAX;
}

static void cover_reaction(const struct call *c, const struct lending *l,
                           const struct answer *a)
{
    bool done = a->field[REFUSED] == 0;
    meet(NEW_MARKS, done && c->new_marks);
    meet(MARKS_BEHIND, a->field[REFUSED] == 8 && a->field[PLACE] > 0);
    meet(REACTIONS_STOP, done && stops(l, 0));
    meet(STEPS_STOP, done && stops(l, 1));
    meet(FINISHED_REACTION, done && c->kind == REACT &&
                                a->field[FINISHED] == 1 &&
                                a->field[STEPS] == 2);
}

static uint32_t deepest_loop(const struct scenario *s)
{
    uint32_t deepest = 0;
    for (uint32_t place = 0; place < s->records; place++) {
        uint32_t loops = 0;
        for (uint32_t outer = 0; outer <= place; outer++)
            loops += s->table[outer * RECORD_BYTES] == LOOP &&
                     place < outer + span_at(s->table, outer);
        deepest = loops > deepest ? loops : deepest;
    }
    return deepest;
}

void cover(const struct scenario *s, const struct call *c,
           const struct lending *l, const struct answer *a)
{
    uint64_t refused = a->field[REFUSED];
    refusals[c->kind][refused < INDEPENDENT_REFUSALS ? refused : 0]++;
    cover_slices(c, l);
    cover_room(c, a);
    if (c->kind == RUN_LIST)
        cover_list(l, a);
    if (c->kind == REACT || c->kind == RUN_LIST)
        cover_reaction(c, l, a);
    meet(HIGH_LEVEL, c->kind != CHECK && a->field[HIGHEST] > 9);
    meet(MANY_STEPS,
         (c->kind == START || c->kind == REACT) && a->field[STEPS] > 500);
    if (c->kind == CHECK && refused == 0) {
        meet(LARGEST, s->records == MOST_RECORDS);
        meet(DEEPEST, deepest_loop(s) == MOST_LOOPS);
    }
    meet(NOTHING_AWAITED,
         c->kind == QUERY && refused == 0 && a->field[NUMBER] == 0);
    meet(MANY_AWAITED, a->field[NUMBER] > 9);
    meet(LONGER_REMAINING, a->field[RECORDS] > s->records);
}

static uint32_t print_refusals(void)
{
    uint32_t zeros = 0;
    printf("call        accepted, then refused 1 to 12\n");
    for (uint32_t kind = 0; kind < CALLS; kind++) {
        printf("%-10s", call_name(kind));
        for (uint32_t i = 0; i < INDEPENDENT_REFUSALS; i++) {
            if (!can_refuse(kind, i)) {
                printf(" -");
                continue;
            }
            printf(" %" PRIu64, refusals[kind][i]);
            zeros += refusals[kind][i] == 0;
        }
        printf("\n");
    }
    return zeros;
}

static uint32_t print_row(const char *name, uint64_t times)
{
    printf("%12" PRIu64 "  %s%s\n", times, name,
           times == 0 ? "  NEVER MET" : "");
    return times == 0;
}

uint32_t print_coverage(void)
{
    const struct independent_coverage *c = independent_coverage_read();
    uint32_t zeros = print_refusals();
    char name[32];
    for (uint32_t i = 0; i < SITUATIONS; i++)
        zeros += print_row(situation_names[i], met[i]);
    for (uint32_t i = RULE_NONE + 1; i < INDEPENDENT_RULES; i++)
        zeros += print_row(independent_rule_name((enum independent_rule)i),
                           c->rules[i]);
    for (uint32_t i = 0; i < INDEPENDENT_KINDS; i++) {
        snprintf(name, sizeof name, "nodes of kind %" PRIu32, i);
        zeros += print_row(name, c->kinds[i]);
    }
    if (c->rules[RULE_NONE] != 0) {
        printf("no rule applied %" PRIu64 " times\n", c->rules[RULE_NONE]);
        zeros++;
    }
    return zeros;
}
