/* A whole scenario, call after call on the same marks and variables. */
#include <string.h>

#include "comparison.h"

static uint64_t compared;

uint64_t calls_compared(void)
{
    return compared;
}

/* Stops at the first call that differs. */
void replay(const struct scenario *s, struct difference *d, bool counted)
{
    struct state state = s->first;
    d->check = NULL;
    for (int32_t i = 0; i < s->calls; i++) {
        const struct call *c = &s->call[i];
        if (c->new_marks)
            memcpy(state.marks, c->marks, sizeof state.marks);
        compare_call(s, c, &state, d, counted);
        d->call = i;
        if (d->check != NULL)
            return;
        if (counted)
            compared++;
    }
}
