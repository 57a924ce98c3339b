/* The contact scenario as records: one trail waits for an easting (input
 * event 1), then for a northing (input event 2), keeps both and counts, and
 * emits "contact ready" (internal event 1). The other puts out easting,
 * northing and count whenever a contact is ready. That trail is an every: a
 * loop may not wait for an internal event alone (refusal 7). */
#include "work.h"

enum { EASTING = 1, NORTHING = 2, CONTACTS = 3, VALUE = 0, READY = 1 };

static const struct {
    uint8_t kind, name;
    int32_t number;
} scenario[] = {
    {AND, 0, 0},
    /* puts out each contact */
    {EVERY_INTERNAL, READY, 0},
    {SEQUENCE, 0, 0},
    {OUTPUT, 1, EASTING},
    {SEQUENCE, 0, 0},
    {OUTPUT, 2, NORTHING},
    {OUTPUT, 3, CONTACTS},
    /* waits for both halves of a contact */
    {LOOP, 0, 0},
    {SEQUENCE, 0, 0},
    {AWAIT_INPUT, 1, 0},
    {SEQUENCE, 0, 0},
    {COPY, EASTING, VALUE},
    {SEQUENCE, 0, 0},
    {AWAIT_INPUT, 2, 0},
    {SEQUENCE, 0, 0},
    {COPY, NORTHING, VALUE},
    {SEQUENCE, 0, 0},
    {ADD, CONTACTS, 1},
    {EMIT, READY, 0},
};

/* The events are 50 contacts. */
void make_scenario(struct work *w)
{
    for (size_t i = 0; i < sizeof scenario / sizeof *scenario; i++)
        add_record(w, scenario[i].kind, scenario[i].name, scenario[i].number);
    for (int32_t contact = 0; contact < WORK_EVENTS / 2; contact++) {
        add_event(w, 1, 1000 + contact);
        add_event(w, 2, 2000 + contact);
    }
}
