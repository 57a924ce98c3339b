/* How much stack the calls of an implementation use at the deepest nesting.
 * The calls run on a stack of their own that was filled with one byte; what
 * they overwrote is what they used.
 * Usage: stack IMPLEMENTATION. Prints the bytes for each shape of program and
 * the most of all. */
#define _XOPEN_SOURCE 600
#include <stdio.h>
#include <stdlib.h>
#include <string.h>
#include <ucontext.h>

#include "quick.h"
#include "work.h"

enum { STACK_BYTES = 1 << 22, FILL = 0xc3 };

static uint8_t out[OUT_BYTES];
static struct work work;
static uint8_t marks[MOST_RECORDS];
static uint32_t refused;
static uint8_t area[STACK_BYTES];
static ucontext_t here, there;

#define CALL(name) quick_##name
#define ROW(name) quick_stack_##name
#include "stack.inc"

#define CALL(name) landarbeso_##name
#define ROW(name) product_stack_##name
#include "stack.inc"

static void no_calls(void)
{
}

static void no_context(void)
{
    fputs("stack: no stack to run on\n", stderr);
    exit(2);
}

static size_t used_by(void (*calls)(void))
{
    size_t untouched = 0;
    memset(area, FILL, sizeof area);
    if (getcontext(&there) != 0)
        no_context();
    there.uc_stack.ss_sp = area;
    there.uc_stack.ss_size = sizeof area;
    there.uc_link = &here;
    makecontext(&there, calls, 0);
    if (swapcontext(&here, &there) != 0)
        no_context();
    while (untouched < sizeof area && area[untouched] == FILL)
        untouched++;
    return sizeof area - untouched;
}

/* Constructs of one kind, each the left or the right child of the one before;
 * the other children wait for event 1 or 2, and so does the last. */
static void nest(uint32_t kind, bool left)
{
    uint32_t pairs = (MOST_RECORDS - 2) / 2;
    add_record(&work, LOOP, 0, 0);
    for (uint32_t i = 0; i < pairs; i++) {
        add_record(&work, kind, 0, 0);
        if (!left)
            add_record(&work, AWAIT_INPUT, 1 + i % 2, 0);
    }
    add_record(&work, AWAIT_INPUT, 1, 0);
    for (uint32_t i = 0; left && i < pairs; i++)
        add_record(&work, AWAIT_INPUT, 1 + i % 2, 0);
}

/* Eight loops, then and, or, sequence, if in turn on the left, and at the
 * bottom a fin, an every and emits: many levels at the deepest place. */
static void nest_all_kinds(void)
{
    static const uint8_t kinds[] = {AND, OR, SEQUENCE, IF};
    uint32_t pairs = (MOST_RECORDS - 8 - 1) / 2;
    for (uint32_t i = 0; i < 7; i++)
        add_record(&work, LOOP, 0, 0);
    for (uint32_t i = 0; i < pairs; i++)
        add_record(&work, kinds[i % 4], 0, 0);
    add_record(&work, LOOP, 0, 0);
    add_record(&work, AWAIT_INPUT, 1, 0);
    for (uint32_t i = 0; i < pairs; i++)
        add_record(&work, AWAIT_INPUT, 2 + i % 3, 0);
}

/* Makes the shape of this number; NULL behind the last. */
static const char *make_shape(uint32_t shape)
{
    static const char *const names[] = {"sequences to the left",
                                        "sequences to the right",
                                        "ifs to the left",
                                        "ifs to the right",
                                        "ands to the left",
                                        "ands to the right",
                                        "ors to the left",
                                        "ors to the right",
                                        "all kinds",
                                        "50 levels",
                                        "full"};
    static const uint8_t kinds[] = {SEQUENCE, IF, AND, OR};
    enum { ALL_KINDS = 8, LEVELS, FULL, SHAPES };
    if (shape == SHAPES)
        return NULL;
    memset(&work, 0, sizeof work);
    if (shape >= LEVELS) {
        make_work(&work, shape == LEVELS ? "levels-50" : "full");
    } else {
        if (shape == ALL_KINDS)
            nest_all_kinds();
        else
            nest(kinds[shape / 2], shape % 2 == 0);
        put_spans(work.table, work.records);
    }
    while (work.event_count < WORK_EVENTS)
        add_event(&work, 1 + work.event_count % 2, 5);
    return names[shape];
}

int main(int count, char **words)
{
    bool product = count == 2 && strcmp(words[1], "product") == 0;
    size_t base = used_by(no_calls), most = 0;
    const char *name;
    if (!product && (count != 2 || strcmp(words[1], "quick") != 0)) {
        fputs("stack: no such implementation\n", stderr);
        return 2;
    }
    for (uint32_t shape = 0; (name = make_shape(shape)) != NULL; shape++) {
        size_t used =
            used_by(product ? product_stack_calls : quick_stack_calls) - base;
        printf("%zu %s\n", used, name);
        most = used > most ? used : most;
    }
    printf("%zu most\n", most);
    return refused != 0;
}
