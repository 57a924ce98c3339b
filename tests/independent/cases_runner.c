/* The runner, run in a folder of its own. */
#include <stdio.h>
#include <stdlib.h>
#include <string.h>

#include "cases.h"

enum { PATH_BYTES = 1024, TEXT_BYTES = 4096 };

static const char *runner_path, *folder_path;

static void in_folder(char *path, const char *name)
{
    snprintf(path, PATH_BYTES, "%s/%s", folder_path, name);
}

/* A NULL stands for a missing file. */
static void put_file(const char *name, const uint8_t *bytes, size_t len)
{
    char path[PATH_BYTES];
    FILE *file;
    in_folder(path, name);
    remove(path);
    if (bytes == NULL)
        return;
    file = fopen(path, "wb");
    expect("a file of the runner can be written",
           file != NULL && fwrite(bytes, 1, len, file) == len);
    if (file != NULL)
        fclose(file);
}

static void expect_printed(const char *name, const char *want)
{
    char command[2 * PATH_BYTES + 64], path[PATH_BYTES], text[TEXT_BYTES];
    FILE *file;
    size_t len = 0;
    snprintf(command, sizeof command, "cd '%s' && '%s' > printed.txt",
             folder_path, runner_path);
    expect("the runner ends well", system(command) == 0);
    in_folder(path, "printed.txt");
    file = fopen(path, "rb");
    if (file != NULL) {
        len = fread(text, 1, sizeof text - 1, file);
        fclose(file);
    }
    text[len] = '\0';
    if (strcmp(text, want) != 0)
        printf("printed:\n%s", text);
    expect(name, strcmp(text, want) == 0);
}

static void runner_case_6(void)
{
    static const uint8_t event[8] = {1, 0, 0, 0, 40, 0, 0, 0};
    static const uint8_t events[16] = {9, 0, 0, 0, 255, 255, 255, 255,
                                       1, 0, 0, 0, 0,   0,   0,   128};
    struct session s;
    open_session(&s, LINES({OR, 0, 0}, {FIN, 0, 0}, {OUTPUT, 2, 0},
                           {AWAIT_INPUT, 1, 0}));
    put_file("program.rec", s.table, s.table_bytes);
    put_file("events.rec", event, 8);
    expect_printed("runner: case 6 with one event 1 of value 40",
                   "0 0 5 0 1 0 waiting\n1 40 4 0 1 1 finished\nout 2 40\n");
    put_file("events.rec", events, 16);
    expect_printed("runner: negative values",
                   "0 0 5 0 1 0 waiting\n9 -1 2 0 1 0 waiting\n"
                   "1 -2147483648 4 0 1 1 finished\nout 2 -2147483648\n");
    put_file("events.rec", NULL, 0);
    expect_printed("runner: a missing event file is empty",
                   "0 0 5 0 1 0 waiting\n");
    put_file("program.rec", NULL, 0);
    expect_printed("runner: a missing program is empty", "refused 1 0\n");
    put_file("events.rec", event, 7);
    expect_printed("runner: the table before the event file", "refused 1 0\n");
    put_file("program.rec", s.table, s.table_bytes);
    expect_printed("runner: the event file before the first line",
                   "refused 10 0\n");
    s.table[25] = 64;
    put_file("program.rec", s.table, s.table_bytes);
    expect_printed("runner: refusal 3 with its place", "refused 3 3\n");
}

/* Adds count times the given leaf, in sequences nesting right. */
static size_t add_chain(struct line *lines, size_t at, struct line leaf,
                        size_t count)
{
    for (size_t i = 0; i < count; i++) {
        if (i + 1 < count)
            lines[at++] = (struct line){SEQUENCE, 0, 0};
        lines[at++] = leaf;
    }
    return at;
}

/* every internal 1 (16 outputs) and six loops of (await 1; 73 emits): D is 6,
 * X = 73 * 7 = 511, announced outputs 16 * 512 = 8,192. */
static size_t put_8192_outputs(struct line *lines)
{
    size_t at = 0;
    lines[at++] = (struct line){AND, 0, 0};
    lines[at++] = (struct line){EVERY_INTERNAL, 1, 0};
    at = add_chain(lines, at, (struct line){OUTPUT, 1, 0}, 16);
    for (size_t i = 0; i < 6; i++)
        lines[at++] = (struct line){LOOP, 0, 0};
    lines[at++] = (struct line){SEQUENCE, 0, 0};
    lines[at++] = (struct line){AWAIT_INPUT, 1, 0};
    return add_chain(lines, at, (struct line){EMIT, 2, 0}, 73);
}

static void runner_room(void)
{
    static const uint8_t bad[8] = {0};
    struct line lines[256];
    struct session s;
    size_t count = put_8192_outputs(lines);
    open_session(&s, lines, count);
    expect_number("announced outputs 8,192", check(&s).outputs, 8192);
    put_file("program.rec", s.table, s.table_bytes);
    put_file("events.rec", NULL, 0);
    expect_printed("runner: announced outputs of 8,192",
                   "0 0 11 0 1 0 waiting\n");
    lines[count - 1] = (struct line){SEQUENCE, 0, 0};
    lines[count] = (struct line){EMIT, 2, 0};
    lines[count + 1] = (struct line){OUTPUT, 1, 0};
    open_session(&s, lines, count + 2);
    put_file("program.rec", s.table, s.table_bytes);
    put_file("events.rec", bad, 8);
    expect_printed("runner: output room before the event file",
                   "refused 11 0\n");
}

static void runner_lengths(void)
{
    uint8_t *events = room_for(70000);
    struct session s;
    open_session(&s, LINES({OUTPUT, 3, 0}));
    put_file("program.rec", s.table, s.table_bytes);
    for (size_t i = 0; i < 70000; i += 8)
        events[i] = 1;
    put_file("events.rec", events, 70000);
    expect_printed("runner: an event file too long", "refused 10 8192\n");
    put_file("events.rec", events, 65537);
    expect_printed("runner: an event file one byte too long",
                   "refused 10 8192\n");
    put_file("events.rec", events, 8);
    expect_printed("runner: outputs of the start",
                   "0 0 3 0 1 1 finished\nout 3 0\n1 0 2 0 1 0 finished\n");
    put_file("program.rec", events, 4000);
    expect_printed("runner: a program too long", "refused 1 0\n");
    free(events);
}

void cases_runner(const char *runner, const char *folder)
{
    runner_path = runner;
    folder_path = folder;
    runner_case_6();
    runner_room();
    runner_lengths();
}
