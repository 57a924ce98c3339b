/* The check: the announced numbers of document 01's examples, and each of its
 * refusals with its place. */
#include <string.h>

#include "calls.h"

static void checks(const char *what, const uint8_t *table, size_t bytes,
                   struct landarbeso_checked expected)
{
    same_checked(what, landarbeso_check(table, bytes), expected);
}

static void accepted(void)
{
    checks("case 4", case4, sizeof case4,
           (struct landarbeso_checked){0, 0, 1, 2, 67, 1});
    checks("case 5", case5, sizeof case5,
           (struct landarbeso_checked){0, 0, 0, 1, 46, 2});
    checks("case 6", case6, sizeof case6,
           (struct landarbeso_checked){0, 0, 0, 1, 26, 1});
}

/* The announced numbers beside a refusal are 0. */
static void refused(const char *what, const uint8_t *table, size_t bytes,
                    uint32_t number, uint32_t place)
{
    checks(what, table, bytes,
           (struct landarbeso_checked){number, place, 0, 0, 0, 0});
}

/* Refusals 1 and 6: tables that are too large, or nest too deep. */
static void too_large(void)
{
    static const uint8_t await[] = {RECORD(AWAIT_INPUT, 1, 1, 0)};
    uint8_t deep[11 * RECORD_BYTES], large[257 * RECORD_BYTES];
    memset(large, 0, sizeof large);
    refused("no table", NULL, 0, 1, 0);
    refused("a broken record", large, 3 * RECORD_BYTES - 1, 1, 0);
    refused("257 records", large, sizeof large, 1, 0);
    for (unsigned i = 0; i < 10; i++) {
        const uint8_t loop[] = {RECORD(LOOP, 0, 11 - i, 0)};
        memcpy(deep + RECORD_BYTES * i, loop, sizeof loop);
    }
    memcpy(deep + 10 * RECORD_BYTES, await, sizeof await);
    refused("ten loops", deep, sizeof deep, 6, 8);
}

static void wrong_records(void)
{
    static const uint8_t kind[] = {RECORD(SEQUENCE, 0, 3, 0),
                                   RECORD(NOTHING, 0, 1, 0),
                                   RECORD(BEGUN_LOOP, 0, 1, 0)};
    static const uint8_t name[] = {RECORD(SEQUENCE, 0, 3, 0),
                                   RECORD(SET, 64, 1, 0),
                                   RECORD(NOTHING, 0, 1, 0)};
    static const uint8_t loose[] = {RECORD(SEQUENCE, 0, 3, 0),
                                    RECORD(NOTHING, 0, 1, 0),
                                    RECORD(BREAK, 0, 1, 0)};
    static const uint8_t busy[] = {RECORD(EVERY_INPUT, 1, 2, 0),
                                   RECORD(AWAIT_INPUT, 1, 1, 0)};
    static const uint8_t endless[] = {
        RECORD(SEQUENCE, 0, 4, 0), RECORD(AWAIT_INPUT, 1, 1, 0),
        RECORD(LOOP, 0, 2, 0), RECORD(AWAIT_INTERNAL, 1, 1, 0)};
    refused("a kind over 19", kind, sizeof kind, 2, 2);
    refused("a name over 63", name, sizeof name, 3, 1);
    refused("a break with no loop", loose, sizeof loose, 4, 2);
    refused("an await under an every", busy, sizeof busy, 5, 1);
    refused("a loop that may end at once", endless, sizeof endless, 7, 2);
}

void check_cases(void)
{
    accepted();
    too_large();
    wrong_records();
}
