/* Each function of the header on known inputs: every field of each answer and
 * every byte lent. */
#include <inttypes.h>
#include <stdio.h>
#include <string.h>

#include "calls.h"

static unsigned passed, failed;

const uint8_t case4[9 * RECORD_BYTES] = {RECORD(AND, 0, 9, 0),
                                         RECORD(SEQUENCE, 0, 3, 0),
                                         RECORD(AWAIT_INTERNAL, 1, 1, 0),
                                         RECORD(OUTPUT, 1, 1, 1),
                                         RECORD(SEQUENCE, 0, 5, 0),
                                         RECORD(SET, 1, 1, 7),
                                         RECORD(SEQUENCE, 0, 3, 0),
                                         RECORD(EMIT, 1, 1, 0),
                                         RECORD(SET, 1, 1, 9)};
const uint8_t case5[4 * RECORD_BYTES] = {
    RECORD(LOOP, 0, 4, 0), RECORD(SEQUENCE, 0, 3, 0),
    RECORD(AWAIT_INPUT, 1, 1, 0), RECORD(OUTPUT, 1, 1, 0)};
const uint8_t case6[4 * RECORD_BYTES] = {
    RECORD(OR, 0, 4, 0), RECORD(FIN, 0, 2, 0), RECORD(OUTPUT, 2, 1, 0),
    RECORD(AWAIT_INPUT, 1, 1, 0)};

static void same_field(const char *what, const char *field, uint64_t is,
                       uint64_t expected)
{
    if (is == expected) {
        passed++;
        return;
    }
    failed++;
    printf("%s: %s: %" PRIu64 ", expected %" PRIu64 "\n", what, field, is,
           expected);
}

#define FIELD(field) same_field(what, #field, is.field, expected.field)

void same_checked(const char *what, struct landarbeso_checked is,
                  struct landarbeso_checked expected)
{
    FIELD(refused);
    FIELD(place);
    FIELD(emitted);
    FIELD(highest);
    FIELD(steps);
    FIELD(outputs);
}

void same_answer(const char *what, struct landarbeso_answer is,
                 struct landarbeso_answer expected)
{
    FIELD(refused);
    FIELD(place);
    FIELD(finished);
    FIELD(highest);
    FIELD(steps);
    FIELD(emitted);
    FIELD(outputs);
}

void same_queried(const char *what, struct landarbeso_queried is,
                  struct landarbeso_queried expected)
{
    FIELD(refused);
    FIELD(place);
    FIELD(number);
    FIELD(lowest);
}

void same_written(const char *what, struct landarbeso_written is,
                  struct landarbeso_written expected)
{
    FIELD(refused);
    FIELD(place);
    FIELD(records);
}

void same_lent(const char *what, const struct lent *is,
               const struct lent *expected)
{
    same_field(what, "marks",
               (uint64_t)memcmp(is->marks, expected->marks, sizeof is->marks),
               0);
    same_field(what, "variables",
               (uint64_t)memcmp(is->variables, expected->variables,
                                sizeof is->variables),
               0);
    same_field(what, "out",
               (uint64_t)memcmp(is->out, expected->out, sizeof is->out), 0);
    same_field(what, "total of reactions", is->totals.reactions,
               expected->totals.reactions);
    same_field(what, "total of steps", is->totals.steps,
               expected->totals.steps);
}

void fresh(struct lent *lent)
{
    memset(lent, BEHIND, sizeof *lent);
    memset(lent->variables, 0, sizeof lent->variables);
    lent->totals.reactions = 100;
    lent->totals.steps = 1000;
}

int main(void)
{
    check_cases();
    run_cases();
    list_cases();
    ask_cases();
    printf("%u passed, %u failed\n", passed, failed);
    return failed == 0 ? 0 : 1;
}
