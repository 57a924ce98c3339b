/* The wrecks: 212 contacts in 106 pairs. Each pair goes to the program as one
 * list of four events, and each contact must come out as one record under its
 * own position.
 * Usage: wrecks PROGRAM <CONTACTS. A line of CONTACTS is an easting and a
 * northing. */
#include <inttypes.h>
#include <stdbool.h>
#include <stdio.h>

#include "landarbeso.h"

enum {
    EASTING = 1,
    NORTHING = 2,
    PAIR_EVENTS = 4,
    ROOM_RECORDS = 40,
    MOST_WRITTEN = 1000
};

struct position {
    int32_t easting, northing;
};

/* one byte more shows that a file is too long */
static uint8_t table[LANDARBESO_MOST_RECORDS * LANDARBESO_RECORD_BYTES + 1];
static uint8_t marks[LANDARBESO_MOST_RECORDS];
static uint8_t out[ROOM_RECORDS * LANDARBESO_RECORD_BYTES];
static int32_t variables[LANDARBESO_VARIABLES];
static struct landarbeso_totals totals;
static struct position written[MOST_WRITTEN];
static unsigned records;

static int32_t number_at(const uint8_t *bytes)
{
    uint32_t bits = bytes[0] | (uint32_t)bytes[1] << 8 |
                    (uint32_t)bytes[2] << 16 | (uint32_t)bytes[3] << 24;
    return bits <= INT32_MAX ? (int32_t)bits : -1 - (int32_t)~bits;
}

static void put_event(uint8_t *record, uint8_t event, int32_t value)
{
    uint32_t bits = (uint32_t)value;
    record[0] = event;
    record[1] = record[2] = record[3] = 0;
    for (int i = 0; i < 4; i++)
        record[4 + i] = (uint8_t)(bits >> 8 * i);
}

/* An easting and a northing, one behind the other, are one record of the book.
 */
static void write_records(uint64_t outputs)
{
    for (uint64_t i = 0; i + 1 < outputs && records < MOST_WRITTEN; i += 2) {
        const uint8_t *easting = out + LANDARBESO_RECORD_BYTES * i;
        const uint8_t *northing = easting + LANDARBESO_RECORD_BYTES;
        struct position p = {number_at(easting + 4), number_at(northing + 4)};
        written[records++] = p;
        printf("record %u: %" PRId32 " %" PRId32 "\n", records, p.easting,
               p.northing);
    }
}

/* How many different positions were written. */
static unsigned positions(void)
{
    unsigned different = 0;
    for (unsigned i = 0; i < records; i++) {
        unsigned j = 0;
        while (j < i && (written[j].easting != written[i].easting ||
                         written[j].northing != written[i].northing))
            j++;
        different += j == i;
    }
    return different;
}

/* Says so where a call was refused. */
static bool refused(struct landarbeso_answer answer)
{
    if (answer.refused != 0)
        printf("refused %" PRIu32 " at %" PRIu32 "\n", answer.refused,
               answer.place);
    return answer.refused != 0;
}

/* Hands over one pair; false where it was refused. */
static bool hand_over(size_t bytes, const struct position pair[2])
{
    uint8_t events[PAIR_EVENTS * LANDARBESO_RECORD_BYTES], *next = events;
    struct landarbeso_answer answer;
    for (int i = 0; i < 2; i++) {
        put_event(next, EASTING, pair[i].easting);
        next += LANDARBESO_RECORD_BYTES;
        put_event(next, NORTHING, pair[i].northing);
        next += LANDARBESO_RECORD_BYTES;
    }
    answer = landarbeso_run_list(
        table, bytes, marks, bytes / LANDARBESO_RECORD_BYTES, variables,
        LANDARBESO_VARIABLES, events, sizeof events, out, sizeof out, &totals);
    if (refused(answer))
        return false;
    write_records(answer.outputs);
    return true;
}

int main(int count, char **words)
{
    FILE *file = count == 2 ? fopen(words[1], "rb") : NULL;
    struct position pair[2];
    size_t bytes;
    if (file == NULL) {
        fputs("usage: wrecks PROGRAM <CONTACTS\n", stderr);
        return 2;
    }
    bytes = fread(table, 1, sizeof table, file);
    fclose(file);
    if (refused(landarbeso_start(table, bytes, marks,
                                 bytes / LANDARBESO_RECORD_BYTES, variables,
                                 LANDARBESO_VARIABLES, out, sizeof out)))
        return 1;
    while (scanf("%" SCNd32 " %" SCNd32 " %" SCNd32 " %" SCNd32,
                 &pair[0].easting, &pair[0].northing, &pair[1].easting,
                 &pair[1].northing) == 4)
        if (!hand_over(bytes, pair))
            return 1;
    printf("%u records under %u positions, in %" PRIu64 " reactions\n",
           records, positions(), totals.reactions);
    return 0;
}
