/* What the cases share: records by hand, and a comparison of each field with
 * the number expected. */
#ifndef CALLS_H
#define CALLS_H

#include "landarbeso.h"
#include "../records.h"

enum { ROOM = 96, BEHIND = 0xA5 };

/* A program under test with all that is lent to it; every byte that no call
 * writes stays BEHIND. */
struct lent {
    uint8_t marks[LANDARBESO_MOST_RECORDS];
    int32_t variables[LANDARBESO_VARIABLES];
    uint8_t out[ROOM];
    struct landarbeso_totals totals;
};

/* Each is one record or one event of 8 bytes. */
#define RECORD(kind, name, span, number)                                      \
    (kind), (name), (span) % 256, (span) / 256, (uint32_t)(number) % 256,     \
        (uint32_t)(number) / 256 % 256, (uint32_t)(number) / 65536 % 256,     \
        (uint32_t)(number) / 16777216
#define EVENT(event, value) RECORD(event, 0, 0, value)

/* Document 01's examples 4, 5 and 6. */
extern const uint8_t case4[9 * RECORD_BYTES];
extern const uint8_t case5[4 * RECORD_BYTES];
extern const uint8_t case6[4 * RECORD_BYTES];

void fresh(struct lent *lent);
void same_checked(const char *what, struct landarbeso_checked is,
                  struct landarbeso_checked expected);
void same_answer(const char *what, struct landarbeso_answer is,
                 struct landarbeso_answer expected);
void same_queried(const char *what, struct landarbeso_queried is,
                  struct landarbeso_queried expected);
void same_written(const char *what, struct landarbeso_written is,
                  struct landarbeso_written expected);
void same_lent(const char *what, const struct lent *is,
               const struct lent *expected);

void check_cases(void);
void run_cases(void);
void list_cases(void);
void ask_cases(void);

#endif
