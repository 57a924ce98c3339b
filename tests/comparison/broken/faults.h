/* The faults, one for each number. Each line "FAULT number: check: what" says
 * which check of the comparison has to see it; prove_checks reads them. */
#ifndef FAULTS_H
#define FAULTS_H

#ifndef FAULT
#define FAULT 0
#endif

/* A fault that is chosen does its work, any other does nothing. */
#define WHEN(number, what)                                                    \
    do {                                                                      \
        if (FAULT == (number)) {                                              \
            what;                                                             \
        }                                                                     \
    } while (0)
#define DONE ((a).refused == 0)
#define WRITABLE(slice) ((uint8_t *)(uintptr_t)(slice))

/* Before the check, the start, a reaction, a list, a query.
 * FAULT 1: the answer's refused: the table's length is cut to 32 bits
 * FAULT 2: the answer's refused: the number of variables is cut to 32 bits
 * FAULT 3: the answer's refused: the length of the marks is cut to 32 bits
 * FAULT 4: the answer's refused: the room is cut to 32 bits
 * FAULT 5: the answer's refused: the length of a list is cut to 32 bits
 */
#define BEFORE_CHECK WHEN(1, table_bytes = (uint32_t)table_bytes)
#define BEFORE_START WHEN(2, variables_count = (uint32_t)variables_count)
#define BEFORE_REACT WHEN(4, out_bytes = (uint32_t)out_bytes)
#define BEFORE_LIST WHEN(5, events_bytes = (uint32_t)events_bytes)
#define BEFORE_QUERY WHEN(3, marks_bytes = (uint32_t)marks_bytes)

/* Behind the check.
 * FAULT 6: the answer's place: the place of refusal 3 is off
 * FAULT 7: the answer's steps: announced steps are off in larger programs
 * FAULT 8: the answer's outputs: announced outputs are off where they are many
 * FAULT 9: the answer's emitted: announced internal events are off
 * FAULT 10: the answer's highest: the announced level is off
 * FAULT 11: the guard behind the table: the byte behind the table is changed
 * FAULT 12: the table stays: the table is changed
 * FAULT 13: a call comes back: a null table of length 0 is read
 * FAULT 14: the answer's steps: beside a refusal the announced steps are not 0
 * FAULT 59: the guard before the table: the byte before the table is changed
 * FAULT 64: a call comes back: a byte behind the table is read
 */
#define BREAK_CHECK(a)                                                        \
    do {                                                                      \
        WHEN(6, if ((a).refused == 3)(a).place++);                            \
        WHEN(7, if ((a).steps > 900)(a).steps++);                             \
        WHEN(8, if ((a).outputs > 40)(a).outputs--);                          \
        WHEN(9, if ((a).emitted > 9)(a).emitted++);                           \
        WHEN(10, if ((a).highest > 9)(a).highest--);                          \
        WHEN(11, if (table != NULL) WRITABLE(table)[table_bytes] = 0);        \
        WHEN(12, if (table_bytes > 80) WRITABLE(table)[9] ^= 1);              \
        WHEN(13, if (table_bytes == 0)(a).place =                             \
                     *(const volatile uint8_t *)table - *table);              \
        WHEN(14, if ((a).refused == 7)(a).steps = 1);                         \
        WHEN(59, if (table != NULL) WRITABLE(table)[-1] = 0);                 \
        WHEN(64, if (((const volatile uint8_t *)table)[table_bytes] == 7)(a)  \
                     .place = 0);                                             \
    } while (0)

/* Behind the start.
 * FAULT 15: the variables: variable 0 is not set
 * FAULT 16: the marks: a mark stays that was there before
 * FAULT 17: a refusal leaves all as it was: refusal 11 has cleared the marks
 * FAULT 18: the answer's finished: finished is off after an output
 * FAULT 19: the guard before the variables: the bytes before are changed
 */
#define BREAK_START(a)                                                        \
    do {                                                                      \
        WHEN(15, if (DONE) variables[0] = 1);                                 \
        WHEN(16, if (DONE && marks_bytes > 9) marks[marks_bytes - 1] = 1);    \
        WHEN(17, if ((a).refused == 11) memset(marks, 0, marks_bytes));       \
        WHEN(18, if (DONE && (a).outputs > 0)(a).finished ^= 1);              \
        WHEN(19, if (DONE) variables[-1] = 0);                                \
    } while (0)

/* Behind a reaction.
 * FAULT 20: the answer's steps: steps are off by one where it emits
 * FAULT 21: the answer's emitted: internal events are off by one
 * FAULT 22: the answer's highest: the highest level is off by one
 * FAULT 23: the marks: a mark is off where it emits
 * FAULT 24: the variables: variable 63 is off after outputs
 * FAULT 25: the outputs: a byte of a value is off
 * FAULT 26: the outputs: one of the three zeros is not written
 * FAULT 27: the bytes behind the outputs stay: the last byte is changed
 * FAULT 28: the guard behind the outputs: the byte behind the room is changed
 * FAULT 29: the guard before the marks: the byte before is changed
 * FAULT 30: the guard behind the variables: a 65th variable is changed
 * FAULT 31: the guard behind the totals: a third number is changed
 * FAULT 32: the totals: a reaction counts twice
 * FAULT 33: the totals: steps start again at the top
 * FAULT 34: the answer's refused: 10 is tested before 9
 * FAULT 35: the answer's refused: 11 is tested before 10
 * FAULT 36: a refusal leaves all as it was: refusal 10 has set variable 0
 * FAULT 37: a refusal leaves all as it was: refusal 11 has counted
 * FAULT 38: the answer's finished: a refusal says finished
 * FAULT 39: a call comes to its end: a high level never ends
 * FAULT 40: the answer's place: the place of refusal 8 is off
 */
#define BREAK_REACT(a)                                                        \
    do {                                                                      \
        WHEN(20, if ((a).emitted > 0)(a).steps++);                            \
        WHEN(21, if ((a).emitted > 3)(a).emitted--);                          \
        WHEN(22, if ((a).highest > 3)(a).highest--);                          \
        WHEN(23, if ((a).emitted > 1) marks[marks_bytes - 1] ^= 1);           \
        WHEN(24, if ((a).outputs > 1) variables[63]++);                       \
        WHEN(25, if ((a).outputs > 1) out[14] ^= 1);                          \
        WHEN(26, if ((a).outputs > 2) out[18] = 1);                           \
        WHEN(27, if (DONE && (a).outputs * 8 < out_bytes)                     \
                     out[out_bytes - 1] ^= 1);                                \
        WHEN(28, if ((a).outputs > 0) out[out_bytes] = 0);                    \
        WHEN(29, if ((a).emitted > 0) marks[-1] = 0);                         \
        WHEN(30, if (DONE) variables[64] = 0);                                \
        WHEN(31, if (DONE) totals[1].reactions = 0);                          \
        WHEN(32, if ((a).emitted > 0) totals->reactions++);                   \
        WHEN(33, if (DONE && totals->steps == UINT64_MAX) totals->steps = 0); \
        WHEN(34, if ((a).refused == 9 && event - 1 > 62)(a).refused = 10);    \
        WHEN(35, if ((a).refused == 10 && out_bytes == 0)(a).refused = 11);   \
        WHEN(36, if ((a).refused == 10) variables[0] = value ^ 1);            \
        WHEN(37, if ((a).refused == 11) totals->reactions ^= 1);              \
        WHEN(38, if ((a).refused == 9)(a).finished = 1);                      \
        WHEN(                                                                 \
            39, while ((a).highest > 2) { *(volatile uint8_t *)marks; });     \
        WHEN(40, if ((a).refused == 8 && (a).place > 0)(a).place--);          \
    } while (0)

/* Behind a list.
 * FAULT 41: the answer's outputs: outputs are off by one
 * FAULT 42: the answer's place: the place of refusal 12 is off
 * FAULT 43: the answer's steps: refusal 12 has no counts
 * FAULT 44: the totals: refusal 12 counts one event more
 * FAULT 45: the answer's place: a list too long has another place
 * FAULT 46: the events stay: the list is changed
 * FAULT 47: the guard behind the events: the byte behind the list is changed
 * FAULT 48: the answer's highest: the level of the last event, not the highest
 * FAULT 49: the answer's finished: a list that was stopped says waiting
 * FAULT 50: a refusal leaves all as it was: refusal 10 has used the room
 * FAULT 60: the guard before the events: the byte before the list is changed
 * FAULT 61: the guard before the totals: the number before them is changed
 * FAULT 63: a call comes back: a byte behind the list is read
 * (62 is for edits.txt)
 */
#define BREAK_LIST(a)                                                         \
    do {                                                                      \
        WHEN(41, if ((a).outputs > 2)(a).outputs--);                          \
        WHEN(42, if ((a).refused == 12 && (a).place > 0)(a).place--);         \
        WHEN(43, if ((a).refused == 12)(a).steps = 0);                        \
        WHEN(44, if ((a).refused == 12) totals->reactions ^= 1);              \
        WHEN(45,                                                              \
             if ((a).place == 8192)(a).place = (uint32_t)events_bytes / 8);   \
        WHEN(46, if (DONE && events_bytes > 16) WRITABLE(events)[12] ^= 1);   \
        WHEN(47,                                                              \
             if (DONE && events_bytes) WRITABLE(events)[events_bytes] = 0);   \
        WHEN(48, if ((a).highest > 2)(a).highest = 1);                        \
        WHEN(49, if ((a).refused == 12)(a).finished = 0);                     \
        WHEN(50, if ((a).refused == 10 && out_bytes > 0) out[0] ^= 1);        \
        WHEN(60, if (DONE && events_bytes) WRITABLE(events)[-1] = 0);         \
        WHEN(61, if (DONE) totals[-1].steps = 0);                             \
        WHEN(62, if ((a).refused == 12)(a).refused = 11);                     \
        WHEN(63,                                                              \
             if (DONE && events_bytes &&                                      \
                 ((const volatile uint8_t *)events)[events_bytes] == 7)(a)    \
                 .place = 0);                                                 \
    } while (0)

/* Behind a query and the remaining program.
 * FAULT 51: the answer's number: more than two events are counted wrongly
 * FAULT 52: the answer's lowest: another than the lowest
 * FAULT 53: the marks stay that are only read: a mark is changed
 * FAULT 54: the answer's records: one more than there are
 * FAULT 55: the outputs: a span is not new
 * FAULT 56: the bytes behind the outputs stay: the byte behind is changed
 * FAULT 57: the guard behind the marks: the byte behind the marks is changed
 * FAULT 58: the guard before the outputs: the byte before is changed
 */
#define BREAK_QUERY(a)                                                        \
    do {                                                                      \
        WHEN(51, if ((a).number > 2)(a).number--);                            \
        WHEN(52, if ((a).number > 1)(a).lowest++);                            \
        WHEN(53, if (DONE) WRITABLE(marks)[marks_bytes / 2] ^= 1);            \
        WHEN(57, if (DONE) WRITABLE(marks)[marks_bytes] = 0);                 \
    } while (0)
#define BREAK_REMAINING(a)                                                    \
    do {                                                                      \
        WHEN(54, if ((a).records > 6)(a).records++);                          \
        WHEN(55, if (out[0] == 20) out[2] = (uint8_t)table_bytes);            \
        WHEN(56, if ((a).records * 8 < out_bytes) out[8 * (a).records] ^= 1); \
        WHEN(58, if (DONE) out[-1] = 0);                                      \
    } while (0)

#endif
