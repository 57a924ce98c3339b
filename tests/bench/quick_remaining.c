/* The remaining program of the quick interpreter, written straight from the
 * records and the marks: counted first, then written. */
#include "quick.h"
#include "quick_parts.h"

struct writing {
    const uint8_t *table, *marks;
    uint8_t *out; /* NULL: only counted */
    uint32_t records;
};

static bool is_marked(const struct writing *w, uint32_t place)
{
    return memchr(w->marks + place, 1, span_at(w->table, place)) != NULL;
}

static void write_span(struct writing *w, uint32_t at)
{
    if (w->out != NULL)
        put_span(w->out, at, w->records - at);
}

static uint32_t write_begun(struct writing *w, uint32_t kind)
{
    if (w->out != NULL)
        put_record(w->out, w->records, kind, 0, 0);
    return w->records++;
}

static void write_construct(struct writing *w, uint32_t place)
{
    uint32_t span = span_at(w->table, place);
    if (w->out != NULL)
        memcpy(w->out + RECORD_BYTES * w->records,
               w->table + RECORD_BYTES * place, RECORD_BYTES * span);
    w->records += span;
}

static void write_rest(struct writing *w, uint32_t place);

/* One side, or both under a kind that says so. */
static void write_sides(struct writing *w, uint32_t place, uint32_t kind)
{
    uint32_t left = place + 1, right = left + span_at(w->table, left), at;
    if (!is_marked(w, left)) {
        write_rest(w, right);
        return;
    }
    if (kind == IF || (kind != SEQUENCE && !is_marked(w, right))) {
        write_rest(w, left);
        return;
    }
    at = write_begun(w, kind == SEQUENCE ? SEQUENCE
                        : kind == AND    ? BEGUN_AND
                                         : BEGUN_OR);
    write_rest(w, left);
    if (kind == SEQUENCE)
        write_construct(w, right);
    else
        write_rest(w, right);
    write_span(w, at);
}

static void write_rest(struct writing *w, uint32_t place)
{
    uint32_t kind = kind_at(w->table, place), at;
    if (kind == LOOP) {
        at = write_begun(w, BEGUN_LOOP);
        write_rest(w, place + 1);
        write_construct(w, place + 1);
        write_span(w, at);
    } else if (children(kind) == 2) {
        write_sides(w, place, kind);
    } else {
        write_construct(w, place);
    }
}

static uint32_t write_program(const uint8_t *table, const uint8_t *marks,
                              uint8_t *out)
{
    struct writing w = {table, marks, out, 0};
    if (is_marked(&w, 0))
        write_rest(&w, 0);
    else
        write_begun(&w, NOTHING);
    return w.records;
}

struct landarbeso_written quick_remaining(const uint8_t *table,
                                          size_t table_bytes,
                                          const uint8_t *marks,
                                          size_t marks_bytes, uint8_t *out,
                                          size_t out_bytes)
{
    struct landarbeso_queried asked =
        quick_query(table, table_bytes, marks, marks_bytes);
    struct landarbeso_written a = {asked.refused, asked.place, 0};
    if (a.refused != 0)
        return a;
    a.records = write_program(table, marks, NULL);
    if (out_bytes / RECORD_BYTES < a.records)
        return (struct landarbeso_written){11, 0, 0};
    write_program(table, marks, out);
    return a;
}
