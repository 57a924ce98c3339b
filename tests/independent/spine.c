/* Blocked, awake and clear. */
#include "internal.h"

/* "Blocked: awaits, every, fin; @canrun(m) at a level above m; a sequence or
 * @loop by its left; @and, @or when both are." */
bool ind_blocked(const struct node *n, uint32_t level)
{
    switch (n->kind) {
    case AWAIT_INPUT:
    case AWAIT_INTERNAL:
    case EVERY_INPUT:
    case EVERY_INTERNAL:
    case FIN:
        return true;
    case AT_CANRUN:
        return level > (uint32_t)n->number;
    case SEQUENCE:
    case AT_LOOP:
        return ind_blocked(n->left, level);
    case AT_AND:
    case AT_OR:
        return ind_blocked(n->left, level) && ind_blocked(n->right, level);
    default:
        return false;
    }
}

/* "An input event wakes kinds 8 and 15 only, an internal one 9 and 16 only,
 * even where numbers agree." */
static bool wakes(struct event event, const struct node *n)
{
    bool input = n->kind == AWAIT_INPUT || n->kind == EVERY_INPUT;
    return n->name == event.number && input == (event.pending == INPUT_EVENT);
}

static struct node *awake_await(struct node *n, struct event event)
{
    if (!wakes(event, n))
        return n;
    ind_met_rule(n->kind == AWAIT_INPUT ? RULE_AWAKE_AWAIT_INPUT
                                        : RULE_AWAKE_AWAIT_INTERNAL);
    n->kind = NOTHING;
    n->name = 0;
    return n;
}

static struct node *awake_every(struct node *n, struct event event)
{
    if (!wakes(event, n))
        return n;
    ind_met_rule(n->kind == EVERY_INPUT ? RULE_AWAKE_EVERY_INPUT
                                        : RULE_AWAKE_EVERY_INTERNAL);
    return ind_node(SEQUENCE, n->place, ind_copy(n->left), n);
}

/* "awake: every await on the spine for that event becomes @nop, every "every"
 * there for it becomes body ; itself." */
struct node *ind_awake(struct node *n, struct event event)
{
    switch (n->kind) {
    case AWAIT_INPUT:
    case AWAIT_INTERNAL:
        return awake_await(n, event);
    case EVERY_INPUT:
    case EVERY_INTERNAL:
        return awake_every(n, event);
    case SEQUENCE:
    case AT_LOOP:
        n->left = ind_awake(n->left, event);
        return n;
    case AT_AND:
    case AT_OR:
        n->left = ind_awake(n->left, event);
        n->right = ind_awake(n->right, event);
        return n;
    default:
        return n;
    }
}

/* "clear: fin p gives p; sequence and @loop clear their left; @and, @or give
 * clear(left);clear(right); all else gives @nop."  The given tree is used
 * up. */
struct node *ind_clear(struct node *n)
{
    struct node *cleared;
    switch (n->kind) {
    case FIN:
        cleared = n->left;
        n->left = NULL;
        break;
    case SEQUENCE:
    case AT_LOOP:
        cleared = ind_clear(n->left);
        n->left = NULL;
        break;
    case AT_AND:
    case AT_OR:
        cleared = ind_node(SEQUENCE, n->place, ind_clear(n->left),
                           ind_clear(n->right));
        n->left = NULL;
        n->right = NULL;
        break;
    default:
        cleared = ind_node(NOTHING, n->place, NULL, NULL);
        break;
    }
    ind_free(n);
    return cleared;
}
