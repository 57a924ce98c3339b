/* The layout of every struct of the header, as the library has it. */
#include "landarbeso.h"

#define SIZE(type, size) _Static_assert(sizeof(struct type) == (size), #type)
#define FIELD(type, field, at, bytes)                                         \
    _Static_assert(offsetof(struct type, field) == (at), #type "." #field);   \
    _Static_assert(sizeof(((struct type *)0)->field) == (bytes),              \
                   #type "." #field)

SIZE(landarbeso_checked, 24);
FIELD(landarbeso_checked, refused, 0, 4);
FIELD(landarbeso_checked, place, 4, 4);
FIELD(landarbeso_checked, emitted, 8, 4);
FIELD(landarbeso_checked, highest, 12, 4);
FIELD(landarbeso_checked, steps, 16, 4);
FIELD(landarbeso_checked, outputs, 20, 4);

SIZE(landarbeso_answer, 40);
FIELD(landarbeso_answer, refused, 0, 4);
FIELD(landarbeso_answer, place, 4, 4);
FIELD(landarbeso_answer, finished, 8, 4);
FIELD(landarbeso_answer, highest, 12, 4);
FIELD(landarbeso_answer, steps, 16, 8);
FIELD(landarbeso_answer, emitted, 24, 8);
FIELD(landarbeso_answer, outputs, 32, 8);

SIZE(landarbeso_totals, 16);
FIELD(landarbeso_totals, reactions, 0, 8);
FIELD(landarbeso_totals, steps, 8, 8);

SIZE(landarbeso_queried, 16);
FIELD(landarbeso_queried, refused, 0, 4);
FIELD(landarbeso_queried, place, 4, 4);
FIELD(landarbeso_queried, number, 8, 4);
FIELD(landarbeso_queried, lowest, 12, 4);

SIZE(landarbeso_written, 12);
FIELD(landarbeso_written, refused, 0, 4);
FIELD(landarbeso_written, place, 4, 4);
FIELD(landarbeso_written, records, 8, 4);
