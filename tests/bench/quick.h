/* A quick interpreter in plain C, the measure for the product's speed. It has
 * the product's calls under the prefix quick_, with the same parameters, the
 * same answers and the same outcomes; include/landarbeso.h says what each call
 * does. It promises nothing that is proved. */
#ifndef QUICK_H
#define QUICK_H

#include "landarbeso.h"

struct landarbeso_checked quick_check(const uint8_t *table,
                                      size_t table_bytes);

struct landarbeso_answer quick_start(const uint8_t *table, size_t table_bytes,
                                     uint8_t *marks, size_t marks_bytes,
                                     int32_t *variables,
                                     size_t variables_count, uint8_t *out,
                                     size_t out_bytes);

struct landarbeso_answer quick_react(const uint8_t *table, size_t table_bytes,
                                     uint8_t *marks, size_t marks_bytes,
                                     int32_t *variables,
                                     size_t variables_count, uint32_t event,
                                     int32_t value, uint8_t *out,
                                     size_t out_bytes,
                                     struct landarbeso_totals *totals);

struct landarbeso_answer quick_run_list(
    const uint8_t *table, size_t table_bytes, uint8_t *marks,
    size_t marks_bytes, int32_t *variables, size_t variables_count,
    const uint8_t *events, size_t events_bytes, uint8_t *out, size_t out_bytes,
    struct landarbeso_totals *totals);

struct landarbeso_queried quick_query(const uint8_t *table, size_t table_bytes,
                                      const uint8_t *marks,
                                      size_t marks_bytes);

struct landarbeso_written quick_remaining(const uint8_t *table,
                                          size_t table_bytes,
                                          const uint8_t *marks,
                                          size_t marks_bytes, uint8_t *out,
                                          size_t out_bytes);

#endif
