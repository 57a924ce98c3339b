/* A recorder's loop: it loads a program, checks it, starts it, hands over the
 * events that come, and writes out what the program puts out.
 * Usage: recorder PROGRAM <EVENTS. PROGRAM is a table of records; a line of
 * EVENTS is an event and its value. */
#include <inttypes.h>
#include <stdbool.h>
#include <stdio.h>
#include <string.h>

#include "landarbeso.h"

/* Room for six outputs, and lists of at most eight events: small, so that the
 * example comes to refusal 12. */
enum { ROOM_RECORDS = 6, LIST_EVENTS = 8 };

struct recorder {
    /* one byte more shows that a file is too long */
    uint8_t table[LANDARBESO_MOST_RECORDS * LANDARBESO_RECORD_BYTES + 1];
    size_t table_bytes;
    uint8_t marks[LANDARBESO_MOST_RECORDS];
    int32_t variables[LANDARBESO_VARIABLES];
    uint8_t out[ROOM_RECORDS * LANDARBESO_RECORD_BYTES];
    struct landarbeso_totals totals;
};

static const char *meaning(uint32_t refused)
{
    switch (refused) {
    case LANDARBESO_WRONG_LENGTH:
        return "the program's length is wrong";
    case LANDARBESO_WRONG_SHAPE:
        return "a record's kind or span is wrong";
    case LANDARBESO_OUT_OF_RANGE:
        return "a record's name or number is out of range";
    case LANDARBESO_LOOSE_BREAK:
        return "a break stands in no loop";
    case LANDARBESO_NOT_PLAIN:
        return "an every or a fin holds what it must not";
    case LANDARBESO_DEEP_LOOP:
        return "loops are nested too deep";
    case LANDARBESO_ENDLESS_LOOP:
        return "a loop may go round without waiting";
    case LANDARBESO_WRONG_MARKS:
        return "the marks were damaged";
    case LANDARBESO_WRONG_VARIABLES:
        return "the variables are not 64";
    case LANDARBESO_WRONG_EVENT:
        return "that is no event";
    case LANDARBESO_NO_ROOM:
        return "the program needs more room for outputs";
    case LANDARBESO_STOPPED:
        return "the room for outputs is used up";
    default:
        return "no such refusal";
    }
}

static void report(uint32_t refused, uint32_t place)
{
    printf("refused %" PRIu32 " at %" PRIu32 ": %s\n", refused, place,
           meaning(refused));
}

static int32_t number_at(const uint8_t *bytes)
{
    uint32_t bits = bytes[0] | (uint32_t)bytes[1] << 8 |
                    (uint32_t)bytes[2] << 16 | (uint32_t)bytes[3] << 24;
    return bits <= INT32_MAX ? (int32_t)bits : -1 - (int32_t)~bits;
}

/* Writes out what the program put out; its room is then free. */
static void drain(const struct recorder *r, uint64_t outputs)
{
    for (uint64_t i = 0; i < outputs; i++) {
        const uint8_t *record = r->out + LANDARBESO_RECORD_BYTES * i;
        printf("out %u %" PRId32 "\n", record[0], number_at(record + 4));
    }
}

/* Loads, checks and starts a program; false where it cannot be run here. */
static bool begin(struct recorder *r, FILE *file)
{
    struct landarbeso_checked checked;
    struct landarbeso_answer answer;
    r->table_bytes = fread(r->table, 1, sizeof r->table, file);
    checked = landarbeso_check(r->table, r->table_bytes);
    if (checked.refused != 0) {
        report(checked.refused, checked.place);
        return false;
    }
    printf("accepted: at most %" PRIu32 " steps and %" PRIu32
           " outputs a reaction\n",
           checked.steps, checked.outputs);
    answer = landarbeso_start(r->table, r->table_bytes, r->marks,
                              r->table_bytes / LANDARBESO_RECORD_BYTES,
                              r->variables, LANDARBESO_VARIABLES, r->out,
                              sizeof r->out);
    if (answer.refused != 0) {
        report(answer.refused, answer.place);
        return false;
    }
    drain(r, answer.outputs);
    return !answer.finished;
}

/* Hands over a list and sets how many of its events are done with; false where
 * the program has finished or cannot go on. */
static bool hand_over(struct recorder *r, const uint8_t *list, size_t events,
                      size_t *done)
{
    struct landarbeso_answer answer = landarbeso_run_list(
        r->table, r->table_bytes, r->marks,
        r->table_bytes / LANDARBESO_RECORD_BYTES, r->variables,
        LANDARBESO_VARIABLES, list, events * LANDARBESO_RECORD_BYTES, r->out,
        sizeof r->out, &r->totals);
    /* nothing was taken: the events before a bad one go by themselves */
    if (answer.refused == LANDARBESO_WRONG_EVENT && answer.place > 0)
        return hand_over(r, list, answer.place, done);
    if (answer.refused != 0)
        report(answer.refused, answer.place);
    switch (answer.refused) {
    case 0:
        *done = events;
        break;
    case LANDARBESO_WRONG_EVENT: /* the bad one is dropped */
        *done = 1;
        return true;
    case LANDARBESO_STOPPED: /* the rest can follow once the room is free */
        *done = answer.place;
        break;
    default: /* damage: what was lent is as it was, and no more goes over */
        *done = 0;
        return false;
    }
    drain(r, answer.outputs);
    return !answer.finished;
}

/* Reads the next events behind those that a list still holds. */
static size_t read_events(uint8_t *list, size_t held)
{
    unsigned event;
    long value;
    while (held < LIST_EVENTS && scanf("%u %ld", &event, &value) == 2) {
        uint8_t *record = list + held * LANDARBESO_RECORD_BYTES;
        uint32_t bits = (uint32_t)value;
        record[0] = (uint8_t)event;
        record[1] = record[2] = record[3] = 0;
        for (int i = 0; i < 4; i++)
            record[4 + i] = (uint8_t)(bits >> 8 * i);
        held++;
    }
    return held;
}

int main(int count, char **words)
{
    static struct recorder recorder;
    uint8_t list[LIST_EVENTS * LANDARBESO_RECORD_BYTES];
    size_t held = 0, done;
    FILE *file = count == 2 ? fopen(words[1], "rb") : NULL;
    bool going;
    if (file == NULL) {
        fputs("usage: recorder PROGRAM <EVENTS\n", stderr);
        return 2;
    }
    going = begin(&recorder, file);
    fclose(file);
    while (going && (held = read_events(list, held)) > 0) {
        going = hand_over(&recorder, list, held, &done);
        held -= done;
        memmove(list, list + done * LANDARBESO_RECORD_BYTES,
                held * LANDARBESO_RECORD_BYTES);
    }
    printf("%" PRIu64 " reactions, %" PRIu64 " steps\n",
           recorder.totals.reactions, recorder.totals.steps);
    return 0;
}
