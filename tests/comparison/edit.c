/* Smaller programs: records are taken out, with their marks. */
#include <string.h>

#include "comparison.h"

static void delete_marks(uint8_t *marks, size_t place, size_t number)
{
    memmove(marks + place, marks + place + number,
            MARKS_ROOM - place - number);
    memset(marks + MARKS_ROOM - number, 0, number);
}

/* Every span over the records shrinks; a table that is damaged stays so. */
bool delete_records(struct scenario *s, size_t place, size_t number)
{
    if (place + number > s->records || number == s->records)
        return false;
    for (size_t outer = 0; outer < place; outer++) {
        size_t span = span_at(s->table, outer);
        if (outer + span > place)
            put_span(s->table, outer, span < number ? 0 : span - number);
    }
    memmove(s->table + place * RECORD_BYTES,
            s->table + (place + number) * RECORD_BYTES,
            TABLE_ROOM - (place + number) * RECORD_BYTES);
    delete_marks(s->first.marks, place, number);
    for (int32_t i = 0; i < s->calls; i++)
        delete_marks(s->call[i].marks, place, number);
    s->records -= (uint32_t)number;
    return true;
}
