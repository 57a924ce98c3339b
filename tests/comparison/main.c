/* Compares the archive with the independent program.
 * Usage: comparison [--calls N] [--seconds T] [--seed S] [--scenario K]
 *                   [--undirected] [--patience T]
 * Without a seed there are two: a fixed one and one from the clock. Calls and
 * seconds are those of each seed; patience, in seconds, is for one scenario
 * and for shrinking it. The last line is "N passed, M failed". */
#include <inttypes.h>
#include <stdio.h>
#include <stdlib.h>
#include <string.h>
#include <time.h>

#include "comparison.h"

enum { FIXED_SEED = 1, USUAL_SECONDS = 45, USUAL_PATIENCE = 120 };

struct wanted {
    uint64_t calls, seconds, seed, scenario, patience;
    bool has_seed, has_scenario, undirected;
};

static struct scenario current;
static uint32_t failed, patience;

static void print_result(void)
{
    printf("%" PRIu64 " passed, %" PRIu32 " failed\n", calls_compared(),
           failed);
    fflush(stdout);
}

/* False where it differs; then it is shrunk and printed. */
static bool attempt(struct scenario *s)
{
    struct difference d;
    be_patient(patience);
    replay(s, &d, true);
    if (d.check == NULL)
        return true;
    failed++;
    be_patient(0);
    shrink(s, &d, patience);
    print_failure(s, &d);
    return false;
}

/* A directed scenario, with guards and with fences. */
static bool attempt_twice(struct scenario *s)
{
    if (!attempt(s))
        return false;
    for (int32_t i = 0; i < s->calls; i++)
        s->call[i].fenced = 1;
    return attempt(s);
}

static bool enough(const struct wanted *w, uint64_t from, time_t begun)
{
    if (w->calls > 0)
        return calls_compared() - from >= w->calls;
    return (uint64_t)(time(NULL) - begun) >= w->seconds;
}

static bool run_seed(const struct wanted *w, uint64_t seed)
{
    uint64_t from = calls_compared(), number;
    time_t begun = time(NULL);
    printf("seed %" PRIu64 "\n", seed);
    fflush(stdout);
    for (number = 0; !enough(w, from, begun); number++) {
        draw_scenario(&current, seed, number);
        if (!attempt(&current))
            return false;
    }
    printf("seed %" PRIu64 ": %" PRIu64 " scenarios, %" PRIu64 " calls\n",
           seed, number, calls_compared() - from);
    return true;
}

static struct wanted read_wanted(int count, char **words)
{
    struct wanted w = {0,     USUAL_SECONDS, 0,    0, USUAL_PATIENCE,
                       false, false,         false};
    for (int i = 1; i < count; i++) {
        const char *word = words[i];
        uint64_t number;
        if (strcmp(word, "--undirected") == 0) {
            w.undirected = true;
            continue;
        }
        number = i + 1 < count ? strtoull(words[++i], NULL, 10) : 0;
        if (strcmp(word, "--calls") == 0) {
            w.calls = number;
        } else if (strcmp(word, "--seconds") == 0) {
            w.seconds = number;
        } else if (strcmp(word, "--patience") == 0) {
            w.patience = number;
        } else if (strcmp(word, "--seed") == 0) {
            w.seed = number;
            w.has_seed = true;
        } else if (strcmp(word, "--scenario") == 0) {
            w.scenario = number;
            w.has_scenario = true;
        } else {
            fprintf(stderr, "comparison: what is %s?\n", word);
            exit(2);
        }
    }
    return w;
}

static void run_all(const struct wanted *w)
{
    if (!w->undirected && !directed(attempt_twice))
        return;
    printf("directed: %" PRIu64 " calls\n", calls_compared());
    if (w->has_seed) {
        run_seed(w, w->seed);
        return;
    }
    if (run_seed(w, FIXED_SEED))
        run_seed(w, (uint64_t)time(NULL));
}

int main(int count, char **words)
{
    struct wanted w = read_wanted(count, words);
    watch();
    patience = (uint32_t)w.patience;
    if (w.has_scenario) {
        draw_scenario(&current, w.seed, w.scenario);
        if (attempt(&current))
            print_scenario(&current);
    } else {
        run_all(&w);
        if (failed == 0)
            failed += print_coverage();
    }
    print_result();
    return failed == 0 ? EXIT_SUCCESS : EXIT_FAILURE;
}
