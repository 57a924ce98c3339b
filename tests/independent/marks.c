/* Waiting marks: stage 8, the tree at rest, and the marks of a final tree. */
#include <string.h>

#include "internal.h"

static bool may_carry_a_mark(uint32_t kind)
{
    return kind == AWAIT_INPUT || kind == AWAIT_INTERNAL ||
           kind == EVERY_INPUT || kind == EVERY_INTERNAL || kind == FIN;
}

/* Does the construct at this place have any mark? */
static bool marked(const struct program *p, const uint8_t *marks, size_t place)
{
    for (size_t below = place; below < place + p->records[place].span; below++)
        if (marks[below] != 0)
            return true;
    return false;
}

static bool marked_left(const struct program *p, const uint8_t *marks,
                        size_t place)
{
    return marked(p, marks, place + 1);
}

static bool marked_right(const struct program *p, const uint8_t *marks,
                         size_t place)
{
    return marked(p, marks, ind_second_child(p, place));
}

/* "Marks fit when: a sequence or if has no marks on both sides; an or has
 * marks on both sides or on neither." */
static bool construct_fits(const struct program *p, const uint8_t *marks,
                           size_t place)
{
    switch (p->records[place].kind) {
    case SEQUENCE:
    case IF:
        return !(marked_left(p, marks, place) &&
                 marked_right(p, marks, place));
    case OR:
        return marked_left(p, marks, place) == marked_right(p, marks, place);
    default:
        return true;
    }
}

/* 8: "waiting marks: not one byte for each record", place 0. */
struct refusal ind_stage_8_length(const struct program *p, size_t marks_bytes)
{
    if (marks_bytes != p->count)
        return ind_refuse(8, 0);
    return ind_accepted();
}

/* 8: "else a byte over 1 or a 1 on a kind other than 8, 9, 15, 16, 19; else
 * not fitting", place "lowest such byte; lowest construct that fails". */
struct refusal ind_stage_8(const struct program *p, const uint8_t *marks,
                           size_t marks_bytes)
{
    struct refusal r = ind_stage_8_length(p, marks_bytes);
    if (r.number != 0)
        return r;
    for (size_t place = 0; place < p->count; place++)
        if (marks[place] > 1 ||
            (marks[place] == 1 && !may_carry_a_mark(p->records[place].kind)))
            return ind_refuse(8, place);
    for (size_t place = 0; place < p->count; place++)
        if (!construct_fits(p, marks, place))
            return ind_refuse(8, place);
    return ind_accepted();
}

static struct node *rest_of(const struct program *p, const uint8_t *marks,
                            size_t place);

/* "an and or or marked on both sides is @and or @or; a construct marked on one
 * side only is that side" */
static struct node *rest_of_pair(const struct program *p, const uint8_t *marks,
                                 size_t place)
{
    uint32_t kind = p->records[place].kind == AND ? AT_AND : AT_OR;
    size_t left = place + 1, right = ind_second_child(p, place);
    if (!marked(p, marks, right))
        return rest_of(p, marks, left);
    if (!marked(p, marks, left))
        return rest_of(p, marks, right);
    return ind_node(kind, (uint32_t)place, rest_of(p, marks, left),
                    rest_of(p, marks, right));
}

/* What a construct with some mark has become: "a sequence marked on its left
 * keeps its right; a loop is its marked body @loop its body". */
static struct node *rest_of(const struct program *p, const uint8_t *marks,
                            size_t place)
{
    size_t left = place + 1;
    switch (p->records[place].kind) {
    case SEQUENCE:
        if (!marked(p, marks, left))
            return rest_of(p, marks, ind_second_child(p, place));
        return ind_node(SEQUENCE, (uint32_t)place, rest_of(p, marks, left),
                        ind_program_tree(p, ind_second_child(p, place)));
    case IF:
        if (marked(p, marks, left))
            return rest_of(p, marks, left);
        return rest_of(p, marks, ind_second_child(p, place));
    case LOOP:
        return ind_node(AT_LOOP, (uint32_t)place, rest_of(p, marks, left),
                        ind_program_tree(p, left));
    case AND:
    case OR:
        return rest_of_pair(p, marks, place);
    default: /* an await, every or fin that is marked */
        return ind_program_tree(p, place);
    }
}

/* "The tree at rest is read from the marks ... no marks at all is one @nop."
 * The marks fit. */
struct node *ind_tree_at_rest(const struct program *p, const uint8_t *marks)
{
    if (!marked(p, marks, 0))
        return ind_node(NOTHING, 0, NULL, NULL);
    return rest_of(p, marks, 0);
}

/* "The spine is the left of a sequence and @loop, and both sides of @and and
 * @or." */
static void mark_the_spine(const struct node *n, uint8_t *marks)
{
    switch (n->kind) {
    case AWAIT_INPUT:
    case AWAIT_INTERNAL:
    case EVERY_INPUT:
    case EVERY_INTERNAL:
    case FIN:
        marks[n->place] = 1;
        return;
    case SEQUENCE:
    case AT_LOOP:
        mark_the_spine(n->left, marks);
        return;
    case AT_AND:
    case AT_OR:
        mark_the_spine(n->left, marks);
        mark_the_spine(n->right, marks);
        return;
    default:
        return;
    }
}

/* 1 at every await, every and fin on the spine of the final tree, 0
 * elsewhere: so the marks read again give that tree. */
void ind_write_marks(const struct program *p, const struct node *tree,
                     uint8_t *marks)
{
    memset(marks, 0, p->count);
    mark_the_spine(tree, marks);
}

/* "All zero means finished." */
bool ind_all_zero(const uint8_t *marks, size_t marks_bytes)
{
    for (size_t place = 0; place < marks_bytes; place++)
        if (marks[place] != 0)
            return false;
    return true;
}
