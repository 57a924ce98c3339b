/* The memory of both sides: each slice stands between two guards, in a copy
 * for the archive, one for the independent program, and one that stays as
 * lent. A fenced slice has no guard behind it: no byte there can even be read.
 */
#define _DEFAULT_SOURCE
#include <stdio.h>
#include <stdlib.h>
#include <string.h>
#include <sys/mman.h>

#include "lend.h"

enum {
    SIDES = 3,
    OUT_ROOM = 1 << 20,
    ALIGNED = 8,
    SCRATCH = 4096 * 8,
    FENCE = 1 << 16 /* whole pages on every machine */
};
static const size_t rooms[SLICES] = {
    TABLE_ROOM,         MARKS_ROOM,
    VARIABLES_ROOM * 4, MOST_LIST_RECORDS *RECORD_BYTES + 64,
    OUT_ROOM,           16};

/* A huge slice is 2^32 variables and more; hardly a page of it is touched. */
#define HUGE_MEMORY (((size_t)1 << 34) + HUGE_LOOKED + 4096)

static uint8_t *get_memory(size_t bytes)
{
    void *memory = mmap(NULL, bytes, PROT_READ | PROT_WRITE,
                        MAP_PRIVATE | MAP_ANONYMOUS | MAP_NORESERVE, -1, 0);
    if (memory == MAP_FAILED) {
        fputs("comparison: no memory\n", stderr);
        exit(2);
    }
    return memory;
}

static size_t usual_memory(uint32_t slice)
{
    size_t bytes = rooms[slice] + 2 * GUARD + ALIGNED;
    return (bytes + FENCE - 1) / FENCE * FENCE;
}

static uint8_t *memory_of(uint32_t side, uint32_t slice, bool huge)
{
    static uint8_t *usual[SIDES][SLICES], *for_huge[SIDES];
    if (huge) {
        if (for_huge[side] == NULL)
            for_huge[side] = get_memory(HUGE_MEMORY);
        return for_huge[side];
    }
    if (usual[side][slice] == NULL) {
        usual[side][slice] = get_memory(usual_memory(slice) + FENCE);
        if (mprotect(usual[side][slice] + usual_memory(slice), FENCE,
                     PROT_NONE) != 0) {
            fputs("comparison: no fence\n", stderr);
            exit(2);
        }
    }
    return usual[side][slice];
}

/* Bytes that are never 0, for all that has no contents of its own. */
static void put_filler(uint8_t *place, size_t length)
{
    static uint8_t filler[OUT_ROOM];
    if (filler[0] == 0)
        for (size_t i = 0; i < sizeof filler; i++)
            filler[i] = (uint8_t)((i * 37 + i / 256 * 11 + 5) | 1);
    if (length > 0)
        memcpy(place, filler, length);
}

uint8_t guard_byte(size_t i)
{
    return (uint8_t)(0xa0 + i);
}

static void put_guard(uint8_t *place)
{
    for (size_t i = 0; i < GUARD; i++)
        place[i] = guard_byte(i);
}

/* The room that a call is announced to need, in records. */
static size_t right_room(const struct scenario *s, const struct call *c,
                         const struct state *state)
{
    static uint8_t scratch[SCRATCH];
    struct independent_checked checked;
    if (c->kind == REMAINING)
        return independent_remaining(s->table, s->records * RECORD_BYTES,
                                     state->marks, s->records, scratch,
                                     sizeof scratch)
            .records;
    checked = independent_check(s->table, s->records * RECORD_BYTES);
    return checked.refused == 0 ? checked.outputs : 2;
}

static size_t right_count(const struct scenario *s, const struct call *c,
                          const struct state *state, uint32_t slice)
{
    switch (slice) {
    case TABLE:
        return s->records * (size_t)RECORD_BYTES;
    case MARKS:
        return s->records;
    case VARIABLE:
        return VARIABLES;
    case EVENTS:
        return c->list.records * (size_t)RECORD_BYTES;
    case OUT:
        return right_room(s, c, state) * RECORD_BYTES;
    default:
        return 16;
    }
}

static size_t unit(uint32_t slice)
{
    return slice == VARIABLE ? sizeof(int32_t) : 1;
}

/* A huge room is 2^32 and no more, so that its low 32 bits are too little; of
 * any other slice they are right. */
static size_t lent_count(struct length want, size_t right, uint32_t slice,
                         bool *huge)
{
    size_t most = rooms[slice] / unit(slice);
    int64_t off = (int64_t)right + want.off;
    *huge = want.how == HUGE_MORE && right <= HUGE_LOOKED / 2;
    if (*huge)
        return (slice == OUT ? 0 : right) + ((size_t)1 << 32);
    if (want.how == ZERO || want.how == ZERO_NULL)
        return 0;
    if (want.how != OFF)
        return right;
    return off < 0 ? 0 : (size_t)off > most ? most : (size_t)off;
}

static void put_events(uint8_t *bytes, size_t length, const struct list *list)
{
    for (size_t i = 0; i * RECORD_BYTES < length; i++) {
        size_t left = length - i * RECORD_BYTES;
        uint64_t event = list->odd_at >= 0 && (size_t)list->odd_at == i
                             ? list->odd
                             : list->few[i % list->different];
        memcpy(bytes + i * RECORD_BYTES, &event,
               left < RECORD_BYTES ? left : RECORD_BYTES);
    }
}

static size_t looked_at(const struct lent *t)
{
    return t->huge ? HUGE_LOOKED : t->length;
}

/* What stands in the slice as it is lent. */
static void put_contents(const struct lent *t, uint32_t slice,
                         const struct scenario *s, const struct call *c,
                         const struct state *state)
{
    const void *from[SLICES] = {s->table, state->marks, state->variables,
                                NULL,     NULL,         state->totals};
    size_t length = looked_at(t), known = rooms[slice];
    if (slice == EVENTS) {
        put_events(t->place, length, &c->list);
        return;
    }
    if (from[slice] == NULL)
        known = 0;
    if (known > length)
        known = length;
    if (known > 0)
        memcpy(t->place, from[slice], known);
    put_filler(t->place + known, length - known);
}

static uint8_t *place_of(const struct lent *t, uint32_t side, uint32_t slice,
                         const struct call *c)
{
    uint8_t *memory = memory_of(side, slice, t->huge);
    if (t->fenced)
        return memory + usual_memory(slice) - t->length;
    if (slice == VARIABLE || slice == TOTALS)
        return memory + GUARD;
    return memory + GUARD + c->shift % ALIGNED;
}

static void lend_slice(struct lending *l, uint32_t slice,
                       const struct scenario *s, const struct call *c,
                       const struct state *state)
{
    struct lent *sides[SIDES] = {l->before, l->ours, l->theirs}, t;
    struct length want = c->lengths[slice];
    t.count =
        lent_count(want, right_count(s, c, state, slice), slice, &t.huge);
    t.length = t.count * unit(slice);
    t.fenced = c->fenced && !t.huge;
    for (uint32_t side = 0; side < SIDES; side++) {
        t.place = place_of(&t, side, slice, c);
        t.bytes = want.how == ZERO_NULL ? NULL : t.place;
        put_guard(t.place - GUARD);
        if (side == 0)
            put_contents(&t, slice, s, c, state);
        else
            memcpy(t.place, l->before[slice].place, looked_at(&t));
        if (t.huge)
            put_filler(t.place + t.length - GUARD, GUARD);
        if (!t.fenced)
            put_guard(t.place + t.length);
        sides[side][slice] = t;
    }
}

/* Only one slice of a call may be huge. */
void lend(struct lending *l, const struct scenario *s, const struct call *c,
          const struct state *state)
{
    memset(l, 0, sizeof *l);
    for (uint32_t slice = 0; slice < SLICES; slice++)
        if (takes(c->kind, slice))
            lend_slice(l, slice, s, c, state);
}

static void take_slice(const struct lent *t, void *to, size_t room)
{
    size_t length = t->length < room ? t->length : room;
    if (length > 0)
        memcpy(to, t->place, length);
}

void take_back(const struct lending *l, struct state *state)
{
    take_slice(&l->ours[MARKS], state->marks, sizeof state->marks);
    take_slice(&l->ours[VARIABLE], state->variables, sizeof state->variables);
    take_slice(&l->ours[TOTALS], state->totals, sizeof state->totals);
}
