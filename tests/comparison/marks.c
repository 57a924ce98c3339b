/* Random marks that fit, most of which no run reaches. */
#include <string.h>

#include "comparison.h"

static bool can_wait(const uint8_t *table, size_t place)
{
    uint32_t kind = table[place * RECORD_BYTES];
    if (waits(kind))
        return true;
    if (kind == LOOP)
        return can_wait(table, place + 1);
    if (kind < IF)
        return false;
    if (kind == OR)
        return can_wait(table, place + 1) &&
               can_wait(table, second_child(table, place));
    return can_wait(table, place + 1) ||
           can_wait(table, second_child(table, place));
}

/* Marks some place in a construct that can wait. */
static void mark(const uint8_t *table, uint8_t *marks, size_t place)
{
    uint32_t kind = table[place * RECORD_BYTES];
    size_t second;
    bool left, right;
    if (waits(kind)) {
        marks[place] = 1;
        return;
    }
    if (kind == LOOP) {
        mark(table, marks, place + 1);
        return;
    }
    second = second_child(table, place);
    left = can_wait(table, place + 1);
    right = can_wait(table, second);
    if (left && right && kind != OR && (kind != AND || one_in(5))) {
        left = one_in(2);
        right = !left;
    }
    if (left)
        mark(table, marks, place + 1);
    if (right)
        mark(table, marks, second);
}

/* For a table that is accepted. */
void fitting_marks(const uint8_t *table, uint8_t *marks)
{
    memset(marks, 0, span_at(table, 0));
    if (can_wait(table, 0) && !one_in(20))
        mark(table, marks, 0);
}
