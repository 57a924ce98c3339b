/* A failure becomes smaller while the same check fails: fewer calls, smaller
 * programs, shorter lists, right lengths, plain numbers. */
#include <string.h>
#include <time.h>

#include "comparison.h"

enum { MOST_ROUNDS = 40, ONE_ATTEMPT = 1 /* second */ };

/* What a construct becomes. */
enum edit { TO_NOTHING, TO_LEFT, TO_RIGHT, EDITS };

/* What of a call becomes right or usual: the length of a slice, or one of
 * these. */
enum aspect { SHIFT = SLICES, NEW_MARKS, VALUE, EVENT, FENCE, LIST, ASPECTS };

static struct scenario smaller; /* what is tried */
static time_t deadline;

/* Keeps the smaller scenario where the same check fails in it. */
static bool keep(struct scenario *s, struct difference *d)
{
    struct difference now;
    if (time(NULL) > deadline)
        return false;
    memset(&now, 0, sizeof now);
    be_patient(ONE_ATTEMPT);
    replay(&smaller, &now, false);
    be_patient(0);
    if (now.check == NULL || strcmp(now.check, d->check) != 0)
        return false;
    *s = smaller;
    *d = now;
    return true;
}

static bool drop_calls(struct scenario *s, struct difference *d)
{
    bool some = false;
    s->calls = d->call + 1;
    for (int32_t i = d->call - 1; i >= 0; i--) {
        smaller = *s;
        memmove(&smaller.call[i], &smaller.call[i + 1],
                (size_t)(smaller.calls - i - 1) * sizeof *smaller.call);
        smaller.calls--;
        some |= keep(s, d);
    }
    return some;
}

/* The construct at a place becomes nothing, or one of its children. */
static bool edit_construct(struct scenario *s, size_t place, enum edit how)
{
    size_t span = span_at(s->table, place), second;
    uint32_t kind = s->table[place * RECORD_BYTES];
    if (span == 0 || place + span > s->records)
        return false;
    if (how == TO_NOTHING) {
        if (kind == NOTHING ||
            (span > 1 && !delete_records(s, place + 1, span - 1)))
            return false;
        put_record(s->table, place, NOTHING, 0, 0);
        return true;
    }
    if (span == 1)
        return false;
    if (children(kind) == 1)
        return how == TO_LEFT && delete_records(s, place, 1);
    second = second_child(s->table, place);
    if (second >= place + span)
        return false;
    if (how == TO_LEFT)
        return delete_records(s, second, place + span - second) &&
               delete_records(s, place, 1);
    return delete_records(s, place, second - place);
}

static bool cut_constructs(struct scenario *s, struct difference *d)
{
    bool some = false;
    for (size_t place = 0; place < s->records; place++)
        for (uint32_t how = 0; how < EDITS; how++) {
            smaller = *s;
            if (edit_construct(&smaller, place, (enum edit)how))
                some |= keep(s, d);
        }
    return some;
}

/* One internal event for another, everywhere. */
static void rename_internal(struct scenario *s, uint8_t from, uint8_t to)
{
    for (size_t place = 0; place < s->records; place++) {
        uint8_t *record = s->table + place * RECORD_BYTES;
        if ((record[0] == AWAIT_INTERNAL || record[0] == EMIT ||
             record[0] == EVERY_INTERNAL) &&
            record[1] == from)
            record[1] = to;
    }
}

/* (await internal a; emit b) becomes nothing, and b becomes a. */
static bool cut_relays(struct scenario *s, struct difference *d)
{
    bool some = false;
    for (size_t place = 0; place + 2 < s->records; place++) {
        const uint8_t *sequence = s->table + place * RECORD_BYTES;
        const uint8_t *await = sequence + RECORD_BYTES;
        const uint8_t *emit = await + RECORD_BYTES;
        if (sequence[0] != SEQUENCE || await[0] != AWAIT_INTERNAL ||
            emit[0] != EMIT)
            continue;
        smaller = *s;
        rename_internal(&smaller, emit[1], await[1]);
        if (edit_construct(&smaller, place, TO_NOTHING))
            some |= keep(s, d);
    }
    return some;
}

static bool shorten_lists(struct scenario *s, struct difference *d)
{
    bool some = false;
    for (int32_t i = 0; i < s->calls; i++) {
        uint32_t by = s->call[i].list.records;
        for (; by > 0; by /= 2) {
            smaller = *s;
            if (smaller.call[i].list.records < by)
                continue;
            smaller.call[i].list.records -= by;
            some |= keep(s, d);
        }
        if (s->call[i].list.different > 1) {
            smaller = *s;
            smaller.call[i].list.different--;
            some |= keep(s, d);
        }
        if (s->call[i].list.odd_at >= 0) {
            smaller = *s;
            smaller.call[i].list.odd_at = NEVER;
            some |= keep(s, d);
        }
    }
    return some;
}

/* One wrong or unusual thing of a call becomes right or usual. */
static bool right_one(struct call *c, uint32_t what)
{
    struct call before = *c;
    if (what < SLICES)
        memset(&c->lengths[what], 0, sizeof c->lengths[what]);
    else if (what == SHIFT)
        c->shift = 0;
    else if (what == NEW_MARKS)
        c->new_marks = 0;
    else if (what == VALUE)
        c->value = 0;
    else if (what == EVENT)
        c->event = 1;
    else if (what == FENCE)
        c->fenced = 0;
    else
        memset(c->list.few, 1, 1);
    return memcmp(&before, c, sizeof before) != 0;
}

static bool right_calls(struct scenario *s, struct difference *d)
{
    bool some = false;
    for (int32_t i = 0; i < s->calls; i++)
        for (uint32_t what = 0; what < ASPECTS; what++) {
            smaller = *s;
            if (right_one(&smaller.call[i], what))
                some |= keep(s, d);
        }
    return some;
}

static bool zero_first(struct scenario *s, struct difference *d)
{
    uint8_t *bytes = (uint8_t *)&smaller.first;
    bool some = false;
    smaller = *s;
    memset(&smaller.first, 0, sizeof smaller.first);
    if (memcmp(&smaller.first, &s->first, sizeof s->first) == 0 || keep(s, d))
        return false;
    for (size_t i = 0; i < sizeof s->first; i += 4) {
        smaller = *s;
        if (memcmp(bytes + i, "\0\0\0\0", 4) == 0)
            continue;
        memset(bytes + i, 0, 4);
        some |= keep(s, d);
    }
    return some;
}

/* Names become 1 and numbers 0. */
static bool plain_records(struct scenario *s, struct difference *d)
{
    bool some = false;
    for (size_t place = 0; place < s->records; place++) {
        uint8_t *record = smaller.table + place * RECORD_BYTES;
        smaller = *s;
        if (record[1] > 1) {
            record[1] = 1;
            some |= keep(s, d);
        }
        smaller = *s;
        if (memcmp(record + 4, "\0\0\0\0", 4) != 0) {
            memset(record + 4, 0, 4);
            some |= keep(s, d);
        }
    }
    return some;
}

void shrink(struct scenario *s, struct difference *d, uint32_t seconds)
{
    bool some = true;
    deadline = time(NULL) + (time_t)seconds;
    for (uint32_t round = 0; some && round < MOST_ROUNDS; round++) {
        some = drop_calls(s, d);
        some |= cut_constructs(s, d);
        some |= cut_relays(s, d);
        some |= shorten_lists(s, d);
        some |= right_calls(s, d);
        some |= zero_first(s, d);
        some |= plain_records(s, d);
    }
}
