/* The checks of the memory after a call: every byte of every slice, and the
 * guards on both sides of it. */
#include <string.h>

#include "lend.h"

static const char *const guards_before[SLICES] = {
    "the guard before the table",     "the guard before the marks",
    "the guard before the variables", "the guard before the events",
    "the guard before the outputs",   "the guard before the totals"};
static const char *const guards_behind[SLICES] = {
    "the guard behind the table",     "the guard behind the marks",
    "the guard behind the variables", "the guard behind the events",
    "the guard behind the outputs",   "the guard behind the totals"};

/* Do the bytes from one offset to another agree? If not, d says where. */
static bool agree(const struct lent *a, const struct lent *b, size_t from,
                  size_t to, struct difference *d)
{
    if (from >= to || memcmp(a->place + from, b->place + from, to - from) == 0)
        return true;
    while (a->place[from] == b->place[from])
        from++;
    d->at = from;
    d->ours_there = a->place[from];
    d->theirs_there = b->place[from];
    return false;
}

/* The whole slice; of a huge one its front and its end. */
static bool agree_whole(const struct lent *a, const struct lent *b,
                        struct difference *d)
{
    if (!a->huge)
        return agree(a, b, 0, a->length, d);
    return agree(a, b, 0, HUGE_LOOKED, d) &&
           agree(a, b, a->length - GUARD, a->length, d);
}

static bool guard_stands(const uint8_t *guard, struct difference *d)
{
    for (size_t i = 0; i < GUARD; i++)
        if (guard[i] != guard_byte(i)) {
            d->at = i;
            d->ours_there = guard[i];
            d->theirs_there = guard_byte(i);
            return false;
        }
    return true;
}

static const char *guards_stand(const struct lent *side, uint32_t slice,
                                struct difference *d)
{
    if (!guard_stands(side[slice].place - GUARD, d))
        return guards_before[slice];
    if (!side[slice].fenced &&
        !guard_stands(side[slice].place + side[slice].length, d))
        return guards_behind[slice];
    return NULL;
}

/* A slice that the call only reads. */
static bool is_input(uint32_t kind, uint32_t slice)
{
    return slice == TABLE || slice == EVENTS ||
           (slice == MARKS && (kind == QUERY || kind == REMAINING));
}

/* Neither side has changed the slice. */
static bool stays(const struct lending *l, uint32_t slice,
                  struct difference *d)
{
    return agree_whole(&l->ours[slice], &l->before[slice], d) &&
           agree_whole(&l->theirs[slice], &l->before[slice], d);
}

static const char *slices_stay(const struct lending *l, const struct call *c,
                               struct difference *d)
{
    static const char *const inputs[SLICES] = {
        "the table stays",
        "the marks stay that are only read",
        NULL,
        "the events stay",
        NULL,
        NULL};
    uint64_t refused = d->theirs.field[REFUSED];
    for (uint32_t slice = 0; slice < SLICES; slice++) {
        if (!takes(c->kind, slice))
            continue;
        if (is_input(c->kind, slice) && !stays(l, slice, d))
            return inputs[slice];
        if (refused != 0 && refused != 12 && !stays(l, slice, d))
            return "a refusal leaves all as it was";
    }
    return NULL;
}

/* The outputs written, or the remaining program, and the bytes behind. */
static const char *outputs_agree(const struct lending *l, struct difference *d)
{
    const struct lent *a = &l->ours[OUT], *b = &l->theirs[OUT];
    const struct answer *answer = &d->theirs;
    size_t written =
        (size_t)(answer->field[OUTPUTS] + answer->field[RECORDS]) *
        RECORD_BYTES;
    if (!agree(a, b, 0, written, d))
        return "the outputs";
    if (!agree(a, &l->before[OUT], written, a->huge ? HUGE_LOOKED : a->length,
               d))
        return "the bytes behind the outputs stay";
    return agree_whole(a, b, d) ? NULL : "the bytes behind the outputs stay";
}

static const char *changes_agree(const struct lending *l, const struct call *c,
                                 struct difference *d)
{
    static const char *const names[SLICES] = {
        NULL, "the marks", "the variables", NULL, NULL, "the totals"};
    for (uint32_t slice = 0; slice < SLICES; slice++)
        if (names[slice] != NULL && takes(c->kind, slice) &&
            !agree_whole(&l->ours[slice], &l->theirs[slice], d))
            return names[slice];
    return takes(c->kind, OUT) ? outputs_agree(l, d) : NULL;
}

/* NULL, or the check that fails. */
const char *same_memory(const struct lending *l, struct difference *d,
                        const struct call *c)
{
    const char *check = slices_stay(l, c, d);
    if (check == NULL)
        check = changes_agree(l, c, d);
    for (uint32_t slice = 0; slice < SLICES && check == NULL; slice++) {
        if (!takes(c->kind, slice))
            continue;
        check = guards_stand(l->ours, slice, d);
        if (check == NULL && guards_stand(l->theirs, slice, d) != NULL)
            check = "the guards of the independent program";
    }
    return check;
}
