/* The test of the independent program.
 * Usage: cases RUNNER FOLDER [SEED]; the runner is run in the empty folder. */
#include <inttypes.h>
#include <stdio.h>
#include <stdlib.h>
#include <string.h>
#include <time.h>

#include "cases.h"

static unsigned long passed, failed;

void expect(const char *name, bool holds)
{
    if (holds) {
        passed++;
        return;
    }
    failed++;
    printf("FAILED %s\n", name);
}

void *room_for(size_t bytes)
{
    void *room = calloc(bytes == 0 ? 1 : bytes, 1);
    if (room == NULL) {
        fputs("cases: out of memory\n", stderr);
        exit(2);
    }
    return room;
}

void expect_number(const char *name, int64_t got, int64_t want)
{
    if (got != want)
        printf("got %" PRId64 ", wanted %" PRId64 ": ", got, want);
    expect(name, got == want);
}

/* The test counts children by itself, and does not rest on what it tests. */
unsigned children(uint32_t kind)
{
    if (kind == IF || kind == SEQUENCE || kind == AND || kind == OR)
        return 2;
    return kind >= LOOP && kind <= FIN ? 1 : 0;
}

/* Writes the span of this record and of all below it; returns it. */
static size_t write_spans(uint8_t *table, size_t place)
{
    size_t span = 1;
    for (unsigned child = 0; child < children(table[place * RECORD_BYTES]);
         child++)
        span += write_spans(table, place + span);
    table[place * RECORD_BYTES + 2] = (uint8_t)(span & 0xff);
    table[place * RECORD_BYTES + 3] = (uint8_t)(span >> 8);
    return span;
}

size_t make_table(uint8_t *table, const struct line *lines, size_t count)
{
    for (size_t i = 0; i < count; i++) {
        uint8_t *record = table + i * RECORD_BYTES;
        record[0] = (uint8_t)lines[i].kind;
        record[1] = (uint8_t)lines[i].name;
        for (int b = 0; b < 4; b++)
            record[4 + b] = (uint8_t)((uint32_t)lines[i].number >> (8 * b));
    }
    write_spans(table, 0);
    return count * RECORD_BYTES;
}

void open_session(struct session *s, const struct line *lines, size_t count)
{
    memset(s, 0, sizeof *s);
    memset(s->out, 0xee, sizeof s->out);
    s->table_bytes = make_table(s->table, lines, count);
    s->records = count;
}

void open_echo(struct session *s)
{
    open_session(s, LINES({LOOP, 0, 0}, {SEQUENCE, 0, 0}, {AWAIT_INPUT, 1, 0},
                          {OUTPUT, 1, 0}));
}

struct independent_checked check(const struct session *s)
{
    return independent_check(s->table, s->table_bytes);
}

struct independent_answer start(struct session *s)
{
    return independent_start(s->table, s->table_bytes, s->marks, s->records,
                             s->variables, VARIABLES, s->out, sizeof s->out);
}

struct independent_answer react(struct session *s, uint32_t event,
                                int32_t value)
{
    return independent_react(s->table, s->table_bytes, s->marks, s->records,
                             s->variables, VARIABLES, event, value, s->out,
                             sizeof s->out, &s->totals);
}

struct independent_answer run_list(struct session *s, const uint8_t *events,
                                   size_t events_bytes, size_t out_bytes)
{
    return independent_run_list(s->table, s->table_bytes, s->marks, s->records,
                                s->variables, VARIABLES, events, events_bytes,
                                s->out, out_bytes, &s->totals);
}

int32_t number_at(const uint8_t *bytes)
{
    int64_t n = (int64_t)bytes[0] + (int64_t)bytes[1] * 256 +
                (int64_t)bytes[2] * 65536 + (int64_t)bytes[3] * 16777216;
    return (int32_t)(n > INT32_MAX ? n - 4294967296 : n);
}

void expect_answer(const char *name, struct independent_answer a,
                   uint64_t steps, uint64_t emitted, uint32_t highest,
                   uint64_t outputs, bool finished)
{
    expect_number(name, a.refused, 0);
    expect_number(name, a.place, 0);
    expect_number(name, (int64_t)a.steps, (int64_t)steps);
    expect_number(name, (int64_t)a.emitted, (int64_t)emitted);
    expect_number(name, a.highest, highest);
    expect_number(name, (int64_t)a.outputs, (int64_t)outputs);
    expect_number(name, a.finished, finished ? 1 : 0);
}

/* A refusal other than 12: zero counts and waiting. */
void expect_refused(const char *name, struct independent_answer a,
                    uint32_t number, uint32_t place)
{
    expect_number(name, a.refused, number);
    expect_number(name, a.place, place);
    expect(name, a.finished == 0 && a.highest == 0 && a.steps == 0 &&
                     a.emitted == 0 && a.outputs == 0);
}

void expect_check_refused(const char *name, struct session *s, uint32_t number,
                          uint32_t place)
{
    struct independent_checked c = check(s);
    struct session before = *s;
    expect_number(name, c.refused, number);
    expect_number(name, c.place, place);
    expect(name,
           c.emitted == 0 && c.highest == 0 && c.steps == 0 && c.outputs == 0);
    expect_refused(name, start(s), number, place);
    expect_refused(name, react(s, 1, 1), number, place);
    expect(name, memcmp(&before, s, sizeof before) == 0);
}

void expect_output(const char *name, const struct session *s, size_t index,
                   uint32_t output, int32_t value)
{
    const uint8_t *bytes = s->out + index * RECORD_BYTES;
    expect_number(name, bytes[0], output);
    expect(name, bytes[1] == 0 && bytes[2] == 0 && bytes[3] == 0);
    expect_number(name, number_at(bytes + 4), value);
}

int main(int count, char **words)
{
    uint64_t seed = (uint64_t)time(NULL);
    if (count < 3) {
        fputs("usage: cases RUNNER FOLDER [SEED]\n", stderr);
        return 2;
    }
    if (count > 3)
        seed = strtoull(words[3], NULL, 10);
    printf("seed %" PRIu64 "\n", seed);
    cases_examples();
    cases_check();
    cases_refusals();
    cases_lists();
    cases_calls();
    cases_rules();
    cases_runner(words[1], words[2]);
    cases_random(seed);
    cases_fuzz(seed);
    printf("%lu passed, %lu failed\n", passed, failed);
    return failed == 0 ? EXIT_SUCCESS : EXIT_FAILURE;
}
