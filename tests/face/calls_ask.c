/* The query and the remaining program: document 01's case 6, a loop that has
 * begun, a finished program, and the refusals. */
#include <string.h>

#include "calls.h"

static const uint8_t waiting[4] = {0, 1, 0, 1}, finished[4] = {0, 0, 0, 0},
                     wrong[4] = {0, 1, 1, 1};

static void remains(const char *what, const uint8_t *table, size_t bytes,
                    const uint8_t *marks, size_t room,
                    struct landarbeso_written expected, const uint8_t *records)
{
    struct lent lent, left;
    fresh(&lent);
    left = lent;
    memcpy(left.out, records, RECORD_BYTES * expected.records);
    same_written(what,
                 landarbeso_remaining(table, bytes, marks,
                                      bytes / RECORD_BYTES, lent.out, room),
                 expected);
    same_lent(what, &lent, &left);
}

static void queries(void)
{
    /* (await 9 and await 4) and (every 4 nothing and await internal 2) */
    static const uint8_t table[] = {
        RECORD(AND, 0, 8, 0),         RECORD(AND, 0, 3, 0),
        RECORD(AWAIT_INPUT, 9, 1, 0), RECORD(AWAIT_INPUT, 4, 1, 0),
        RECORD(AND, 0, 4, 0),         RECORD(EVERY_INPUT, 4, 2, 0),
        RECORD(NOTHING, 0, 1, 0),     RECORD(AWAIT_INTERNAL, 2, 1, 0),
    };
    static const uint8_t marks[8] = {0, 0, 1, 1, 0, 1, 0, 1};
    same_queried("query",
                 landarbeso_query(table, sizeof table, marks, sizeof marks),
                 (struct landarbeso_queried){0, 0, 2, 4});
    same_queried("query, case 6",
                 landarbeso_query(case6, sizeof case6, waiting, 4),
                 (struct landarbeso_queried){0, 0, 1, 1});
    same_queried("query, finished",
                 landarbeso_query(case6, sizeof case6, finished, 4),
                 (struct landarbeso_queried){0, 0, 0, 0});
    same_queried("query, marks",
                 landarbeso_query(case6, sizeof case6, wrong, 4),
                 (struct landarbeso_queried){8, 2, 0, 0});
    same_queried("query, too few marks",
                 landarbeso_query(case6, sizeof case6, waiting, 3),
                 (struct landarbeso_queried){8, 0, 0, 0});
    same_queried(
        "query, table",
        landarbeso_query(case6 + RECORD_BYTES, 3 * RECORD_BYTES, waiting, 3),
        (struct landarbeso_queried){2, 0, 0, 0});
}

void ask_cases(void)
{
    static const uint8_t rest6[] = {
        RECORD(BEGUN_OR, 0, 4, 0), RECORD(FIN, 0, 2, 0),
        RECORD(OUTPUT, 2, 1, 0), RECORD(AWAIT_INPUT, 1, 1, 0)};
    static const uint8_t in_loop[4] = {0, 0, 1, 0};
    static const uint8_t rest_loop[] = {
        RECORD(BEGUN_LOOP, 0, 7, 0),  RECORD(SEQUENCE, 0, 3, 0),
        RECORD(AWAIT_INPUT, 1, 1, 0), RECORD(OUTPUT, 1, 1, 0),
        RECORD(SEQUENCE, 0, 3, 0),    RECORD(AWAIT_INPUT, 1, 1, 0),
        RECORD(OUTPUT, 1, 1, 0),
    };
    static const uint8_t nothing[] = {RECORD(NOTHING, 0, 1, 0)};
    queries();
    remains("remaining, case 6", case6, sizeof case6, waiting,
            4 * RECORD_BYTES, (struct landarbeso_written){0, 0, 4}, rest6);
    remains("remaining, a loop that has begun", case5, sizeof case5, in_loop,
            ROOM, (struct landarbeso_written){0, 0, 7}, rest_loop);
    remains("remaining, finished", case6, sizeof case6, finished, ROOM,
            (struct landarbeso_written){0, 0, 1}, nothing);
    remains("remaining, room", case6, sizeof case6, waiting,
            4 * RECORD_BYTES - 1, (struct landarbeso_written){11, 0, 0},
            rest6);
    remains("remaining, marks", case6, sizeof case6, wrong, 0,
            (struct landarbeso_written){8, 2, 0}, rest6);
    remains("remaining, table", case6, 3 * RECORD_BYTES, waiting, ROOM,
            (struct landarbeso_written){2, 0, 0}, rest6);
}
