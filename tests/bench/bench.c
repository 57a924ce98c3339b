/* Performs one row of the benchmark with one implementation a given number of
 * times, for a tool that counts instructions.
 * Usage: bench ROW WORK IMPLEMENTATION TIMES
 *   ROW             check, react, list, query; show writes the answers
 *   WORK            a name from work.h
 *   IMPLEMENTATION  product; quick; machine, for the scenario
 * What a run costs beside the calls is the same for any TIMES, so that (2n
 * calls - n calls) / n is the cost of one call and of the loop around it. */
#include <inttypes.h>
#include <stdio.h>
#include <stdlib.h>
#include <string.h>

#include "quick.h"
#include "work.h"

static uint8_t out[OUT_BYTES];
static struct work work;

/* What a program goes on from, from call to call. */
static struct lent {
    uint8_t marks[MOST_RECORDS];
    int32_t variables[VARIABLES];
    struct landarbeso_totals totals;
} lent;

/* The work of a row is never refused, and gives back the marks. */
static void must(bool holds, const char *what)
{
    if (!holds) {
        fprintf(stderr, "bench: not so: %s\n", what);
        exit(1);
    }
}

/* In one line. */
static void show_lent(uint32_t records)
{
    printf(" totals %" PRIu64 " %" PRIu64 " marks", lent.totals.reactions,
           lent.totals.steps);
    for (uint32_t i = 0; i < records; i++)
        printf(" %u", lent.marks[i]);
    printf(" variables");
    for (uint32_t i = 0; i < VARIABLES; i++)
        printf(" %" PRId32, lent.variables[i]);
    printf("\n");
}

static void show_outputs(size_t outputs)
{
    for (size_t i = 0; i < outputs; i++) {
        uint64_t output = record_at(out, i);
        printf("out %" PRIu32 " %" PRId32 "\n", kind_of(output),
               (int32_t)number_of(output));
    }
}

#define CALL(name) quick_##name
#define ROW(name) quick_row_##name
#include "rows.inc"

#define CALL(name) landarbeso_##name
#define ROW(name) product_row_##name
#include "rows.inc"

static struct machine machine;

static void machine_row_react(const struct work *w, uint32_t n)
{
    uint32_t next = 0;
    for (; n > 0; n--) {
        uint64_t event = record_at(w->events, next);
        must(machine_react(&machine, kind_of(event), (int32_t)number_of(event),
                           out, OUT_BYTES) >= 0,
             "react");
        next = next + 1 < WORK_EVENTS ? next + 1 : 0;
    }
}

static void machine_row_list(const struct work *w, uint32_t n)
{
    for (; n > 0; n--)
        must(machine_run_list(&machine, w->events, sizeof w->events, out,
                              OUT_BYTES) > 0,
             "list");
}

static void machine_row_show(const struct work *w)
{
    machine_row_react(w, WORK_EVENTS);
    show_outputs(machine_run_list(&machine, w->events, sizeof w->events, out,
                                  OUT_BYTES));
}

/* The rows of one implementation; NULL where it has none of that name. */
struct rows {
    void (*check)(const struct work *, uint32_t);
    void (*react)(const struct work *, uint32_t);
    void (*list)(const struct work *, uint32_t);
    void (*query)(const struct work *, uint32_t);
    void (*show)(const struct work *);
};

/* False where there is no such implementation. */
static bool prepare(const char *implementation, struct rows *rows)
{
    static const struct rows quick = {quick_row_check, quick_row_react,
                                      quick_row_list, quick_row_query,
                                      quick_row_show};
    static const struct rows by_hand = {
        NULL, machine_row_react, machine_row_list, NULL, machine_row_show};
    static const struct rows product = {product_row_check, product_row_react,
                                        product_row_list, product_row_query,
                                        product_row_show};
    if (strcmp(implementation, "product") == 0) {
        product_row_make_rest(&work);
        *rows = product;
        return true;
    }
    if (strcmp(implementation, "quick") == 0) {
        quick_row_make_rest(&work);
        *rows = quick;
        return true;
    }
    machine = machine_start();
    *rows = by_hand;
    return strcmp(implementation, "machine") == 0;
}

/* False where the implementation has no such row. */
static bool perform(const struct rows *rows, const char *row, uint32_t n)
{
    void (*wanted)(const struct work *, uint32_t) = NULL;
    if (strcmp(row, "show") == 0) {
        rows->show(&work);
        return true;
    }
    if (strcmp(row, "check") == 0)
        wanted = rows->check;
    else if (strcmp(row, "react") == 0)
        wanted = rows->react;
    else if (strcmp(row, "list") == 0)
        wanted = rows->list;
    else if (strcmp(row, "query") == 0)
        wanted = rows->query;
    if (wanted == NULL)
        return false;
    wanted(&work, n);
    return true;
}

int main(int count, char **words)
{
    struct rows rows;
    if (count != 5 || !make_work(&work, words[2]) ||
        !prepare(words[3], &rows) ||
        !perform(&rows, words[1], (uint32_t)strtoul(words[4], NULL, 10))) {
        fprintf(stderr, "bench: no such row, work or implementation\n");
        return 2;
    }
    return 0;
}
