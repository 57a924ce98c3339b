/* The quick interpreter under the archive's names, so that it can be compared
 * where the archive is. FAULT 0 is right; every other number has one fault, to
 * show that the comparison sees what is wrong. */
#include <string.h>

#include "faults.h"
#include "quick.h"

struct landarbeso_checked landarbeso_check(const uint8_t *table,
                                           size_t table_bytes)
{
    struct landarbeso_checked a;
    BEFORE_CHECK;
    a = quick_check(table, table_bytes);
    BREAK_CHECK(a);
    return a;
}

struct landarbeso_answer landarbeso_start(const uint8_t *table,
                                          size_t table_bytes, uint8_t *marks,
                                          size_t marks_bytes,
                                          int32_t *variables,
                                          size_t variables_count, uint8_t *out,
                                          size_t out_bytes)
{
    struct landarbeso_answer a;
    BEFORE_START;
    a = quick_start(table, table_bytes, marks, marks_bytes, variables,
                    variables_count, out, out_bytes);
    BREAK_START(a);
    return a;
}

struct landarbeso_answer landarbeso_react(
    const uint8_t *table, size_t table_bytes, uint8_t *marks,
    size_t marks_bytes, int32_t *variables, size_t variables_count,
    uint32_t event, int32_t value, uint8_t *out, size_t out_bytes,
    struct landarbeso_totals *totals)
{
    struct landarbeso_answer a;
    BEFORE_REACT;
    a = quick_react(table, table_bytes, marks, marks_bytes, variables,
                    variables_count, event, value, out, out_bytes, totals);
    BREAK_REACT(a);
    return a;
}

struct landarbeso_answer landarbeso_run_list(
    const uint8_t *table, size_t table_bytes, uint8_t *marks,
    size_t marks_bytes, int32_t *variables, size_t variables_count,
    const uint8_t *events, size_t events_bytes, uint8_t *out, size_t out_bytes,
    struct landarbeso_totals *totals)
{
    struct landarbeso_answer a;
    BEFORE_LIST;
    a = quick_run_list(table, table_bytes, marks, marks_bytes, variables,
                       variables_count, events, events_bytes, out, out_bytes,
                       totals);
    BREAK_LIST(a);
    return a;
}

struct landarbeso_queried landarbeso_query(const uint8_t *table,
                                           size_t table_bytes,
                                           const uint8_t *marks,
                                           size_t marks_bytes)
{
    struct landarbeso_queried a;
    BEFORE_QUERY;
    a = quick_query(table, table_bytes, marks, marks_bytes);
    BREAK_QUERY(a);
    return a;
}

struct landarbeso_written landarbeso_remaining(const uint8_t *table,
                                               size_t table_bytes,
                                               const uint8_t *marks,
                                               size_t marks_bytes,
                                               uint8_t *out, size_t out_bytes)
{
    struct landarbeso_written a = quick_remaining(table, table_bytes, marks,
                                                  marks_bytes, out, out_bytes);
    if (a.refused == 0)
        BREAK_REMAINING(a);
    return a;
}
