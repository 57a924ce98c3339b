/* A scenario as one reads it: records, marks, variables, calls, and both
 * answers of the call that differs. */
#include <inttypes.h>
#include <stdio.h>

#include "comparison.h"

static const char *const kind_names[KINDS] = {"nothing",
                                              "set",
                                              "add",
                                              "copy",
                                              "subtract",
                                              "less",
                                              "divide",
                                              "output",
                                              "await input",
                                              "await internal",
                                              "emit",
                                              "break",
                                              "if",
                                              "sequence",
                                              "loop",
                                              "every input",
                                              "every internal",
                                              "and",
                                              "or",
                                              "fin"};
static const char *const slice_names[SLICES] = {"table",  "marks", "variables",
                                                "events", "out",   "totals"};

static void print_table(const struct scenario *s)
{
    printf("records: place kind name span number\n");
    for (size_t place = 0; place < s->records; place++) {
        uint64_t record = record_at(s->table, place);
        uint32_t kind = kind_of(record);
        printf("  %3zu  %2u %-14s %3u %5u %" PRId32 "\n", place, kind,
               kind < KINDS ? kind_names[kind] : "?", name_of(record),
               span_of(record), (int32_t)number_of(record));
    }
}

static void print_marks(const uint8_t *marks, size_t count)
{
    printf("marks:");
    for (size_t i = 0; i < count; i++)
        printf(" %u", marks[i]);
    printf("\n");
}

static void print_first(const struct scenario *s)
{
    print_marks(s->first.marks, s->records);
    printf("variables (those not 0):");
    for (size_t i = 0; i < VARIABLES; i++)
        if (s->first.variables[i] != 0)
            printf(" v%zu=%" PRId32, i, s->first.variables[i]);
    printf("\ntotals: %" PRIu64 " %" PRIu64 "\n", s->first.totals[0],
           s->first.totals[1]);
}

static void print_list(const struct list *l)
{
    printf("    list of %" PRIu32 " records, which repeat (event, bytes 1-3, "
           "value):",
           l->records);
    for (uint32_t i = 0; i < l->different; i++)
        printf(" %u,%u,%" PRId32, (unsigned)(l->few[i] & 0xff),
               (unsigned)(l->few[i] >> 8 & 0xffffff),
               (int32_t)(l->few[i] >> 32));
    if (l->odd_at >= 0)
        printf("; record %" PRId32 " is 0x%016" PRIx64, l->odd_at, l->odd);
    printf("\n");
}

static void print_call(const struct scenario *s, const struct call *c)
{
    static const char *const hows[HOW_LONG] = {
        "right", "right", "0", "0 with a null pointer", "huge (2^32 more)"};
    printf("  %s", call_name(c->kind));
    if (c->kind == REACT)
        printf(" event %" PRIu32 " value %" PRId32, c->event, c->value);
    for (uint32_t slice = 0; slice < SLICES; slice++) {
        const struct length *l = &c->lengths[slice];
        if (takes(c->kind, slice) && l->how != RIGHT)
            printf("; length of %s %s", slice_names[slice], hows[l->how]);
        if (takes(c->kind, slice) && l->how == OFF)
            printf(" %+" PRId32, l->off);
    }
    if (c->fenced)
        printf("; slices end where memory ends\n");
    else
        printf(c->shift ? "; shifted by %u\n" : "\n", c->shift);
    if (c->kind == RUN_LIST)
        print_list(&c->list);
    if (c->new_marks) {
        printf("    with other ");
        print_marks(c->marks, s->records);
    }
}

void print_scenario(const struct scenario *s)
{
    if (s->name != NULL)
        printf("directed: %s\n", s->name);
    else
        printf("seed %" PRIu64 ", scenario %" PRIu64 " (run --seed %" PRIu64
               " --scenario %" PRIu64 ")\n",
               s->seed, s->number, s->seed, s->number);
    print_table(s);
    print_first(s);
    printf("calls:\n");
    for (int32_t i = 0; i < s->calls; i++)
        print_call(s, &s->call[i]);
}

static void print_answer(const char *whose, const struct answer *a)
{
    printf("%s:", whose);
    for (uint32_t i = 0; i < FIELDS; i++)
        printf(" %s %" PRIu64, field_name(i) + sizeof "the answer's",
               a->field[i]);
    printf("\n");
}

void print_failure(const struct scenario *s, const struct difference *d)
{
    printf("DIFFERS: %s, in call %" PRId32 " (%s)\n", d->check, d->call + 1,
           call_name(s->call[d->call].kind));
    print_scenario(s);
    printf("lengths of that call:");
    for (uint32_t slice = 0; slice < SLICES; slice++)
        if (takes(s->call[d->call].kind, slice))
            printf(" %s %zu", slice_names[slice], d->lengths[slice]);
    printf("\n");
    print_answer("what is compared answers ", &d->ours);
    print_answer("the independent program  ", &d->theirs);
    if (d->ours_there != d->theirs_there)
        printf("at byte %zu: %u where %u should be\n", d->at, d->ours_there,
               d->theirs_there);
}
