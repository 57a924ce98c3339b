/* The header alone, as C99 and as C++17: every function has its type. */
#include "landarbeso.h"

int main(void)
{
    const uint8_t *table = NULL;
    struct landarbeso_totals totals = {0, 0};
    struct landarbeso_checked checked = landarbeso_check(table, 0);
    struct landarbeso_answer started =
        landarbeso_start(table, 0, NULL, 0, NULL, 0, NULL, 0);
    struct landarbeso_answer reacted =
        landarbeso_react(table, 0, NULL, 0, NULL, 0, 1, 0, NULL, 0, &totals);
    struct landarbeso_answer listed = landarbeso_run_list(
        table, 0, NULL, 0, NULL, 0, NULL, 0, NULL, 0, &totals);
    struct landarbeso_queried queried = landarbeso_query(table, 0, NULL, 0);
    struct landarbeso_written written =
        landarbeso_remaining(table, 0, NULL, 0, NULL, 0);
    /* An empty table is refused 1 by each. */
    return !(checked.refused == 1 && started.refused == 1 &&
             reacted.refused == 1 && listed.refused == 1 &&
             queried.refused == 1 && written.refused == 1 &&
             totals.reactions == 0 && totals.steps == 0);
}
