/* The rules of a reaction: one call of ind_step is one step. */
#include "internal.h"

/* The node becomes @nop and keeps its place. */
static void become_nop(struct node *n)
{
    ind_free(n->left);
    ind_free(n->right);
    n->left = NULL;
    n->right = NULL;
    n->kind = NOTHING;
    n->name = 0;
    n->number = 0;
}

/* "Division goes towards zero; by 0 it gives 0; -2147483648 / -1 gives
 * -2147483648." */
static int32_t divide(int32_t v, int32_t w)
{
    if (w == 0)
        return 0;
    if (v == INT32_MIN && w == -1)
        return INT32_MIN;
    return v / w;
}

/* The new value of v for kinds 1 to 6. "Sums and differences wrap." */
static int32_t new_value(const struct node *n, const int32_t *variables)
{
    int32_t v = variables[n->name];
    switch (n->kind) {
    case SET:
        return n->number;
    case ADD:
        return ind_signed((uint32_t)v + (uint32_t)n->number);
    case COPY:
        return variables[n->number];
    case SUBTRACT:
        return ind_signed((uint32_t)v - (uint32_t)variables[n->number]);
    case LESS:
        return v < variables[n->number] ? 1 : 0;
    default:
        return divide(v, variables[n->number]);
    }
}

/* "Outputs are appended in order: 8 bytes, name, three zeros, value; the bytes
 * after them stay."  Without room nothing is written, only counted. */
static void append_output(struct outputs *o, uint32_t name, int32_t value)
{
    if (o->written < o->room) {
        uint8_t *bytes = o->bytes + o->written * RECORD_BYTES;
        bytes[0] = (uint8_t)name;
        bytes[1] = 0;
        bytes[2] = 0;
        bytes[3] = 0;
        ind_write_number(bytes + 4, value);
    }
    o->written++;
}

/* "Kinds 1 to 7 act and become @nop." */
static enum independent_rule act(struct description *d, struct node *n)
{
    static const enum independent_rule rules[] = {
        RULE_NONE,     RULE_SET,  RULE_ADD,    RULE_COPY,
        RULE_SUBTRACT, RULE_LESS, RULE_DIVIDE, RULE_OUTPUT};
    enum independent_rule rule = rules[n->kind];
    if (n->kind == OUTPUT)
        append_output(&d->outputs, n->name, d->variables[n->number]);
    else
        d->variables[n->name] = new_value(n, d->variables);
    become_nop(n);
    return rule;
}

/* "emit at n becomes @canrun(n) with its event pending" */
static enum independent_rule emit(struct description *d, struct node *n)
{
    d->pending.pending = INTERNAL_EVENT;
    d->pending.number = n->name;
    d->emitted++;
    n->kind = AT_CANRUN;
    n->name = 0;
    n->number = (int32_t)d->level;
    ind_met_kind(AT_CANRUN);
    return RULE_EMIT;
}

/* "@canrun(n) at n becomes @nop." */
static enum independent_rule can_run(struct description *d, struct node *n)
{
    if ((uint32_t)n->number != d->level)
        return RULE_NONE;
    become_nop(n);
    return RULE_CANRUN;
}

/* The construct becomes its left or its right; the rest of it is dropped. */
static void become_left(struct node **at)
{
    struct node *whole = *at;
    *at = whole->left;
    whole->left = NULL;
    ind_free(whole);
}

static void become_right(struct node **at)
{
    struct node *whole = *at;
    *at = whole->right;
    whole->right = NULL;
    ind_free(whole);
}

/* "if becomes a branch": "if v is not 0, left, else right". */
static enum independent_rule branch(struct description *d, struct node **at)
{
    if (d->variables[(*at)->name] != 0) {
        become_left(at);
        return RULE_IF_LEFT;
    }
    become_right(at);
    return RULE_IF_RIGHT;
}

static enum independent_rule step_tree(struct description *d,
                                       struct node **at);

/* "@nop;q becomes q. break;q becomes break." */
static enum independent_rule step_sequence(struct description *d,
                                           struct node **at)
{
    switch ((*at)->left->kind) {
    case NOTHING:
        become_right(at);
        return RULE_NOP_SEQUENCE;
    case BREAK:
        become_left(at);
        return RULE_BREAK_SEQUENCE;
    default:
        ind_met_rule(RULE_WITHIN_SEQUENCE);
        return step_tree(d, &(*at)->left);
    }
}

/* "loop p becomes p @loop p." */
static enum independent_rule step_loop(struct node *n)
{
    n->kind = AT_LOOP;
    n->right = ind_copy(n->left);
    ind_met_kind(AT_LOOP);
    return RULE_LOOP;
}

/* "@nop @loop q becomes loop q. break @loop q becomes @nop." */
static enum independent_rule step_at_loop(struct description *d,
                                          struct node *n)
{
    switch (n->left->kind) {
    case NOTHING:
        ind_free(n->left);
        n->kind = LOOP;
        n->left = n->right;
        n->right = NULL;
        ind_met_kind(LOOP);
        return RULE_NOP_LOOP;
    case BREAK:
        become_nop(n);
        return RULE_BREAK_LOOP;
    default:
        ind_met_rule(RULE_WITHIN_LOOP);
        return step_tree(d, &n->left);
    }
}

/* "p and q becomes p @and (@canrun(n);q); or likewise." */
static enum independent_rule step_and_or(struct description *d, struct node *n)
{
    bool is_and = n->kind == AND;
    struct node *canrun = ind_node(AT_CANRUN, n->place, NULL, NULL);
    canrun->number = (int32_t)d->level;
    n->right = ind_node(SEQUENCE, n->place, canrun, n->right);
    n->kind = is_and ? AT_AND : AT_OR;
    ind_met_kind(n->kind);
    return is_and ? RULE_AND : RULE_OR;
}

/* The construct becomes clear(cleared);break. */
static void become_clear_then_break(struct node **at, struct node *cleared,
                                    struct node *at_break)
{
    struct node *whole = *at;
    *at = ind_node(SEQUENCE, whole->place, ind_clear(cleared), at_break);
    whole->left = NULL;
    whole->right = NULL;
    ind_free(whole);
}

/* "@nop @and q becomes q; @nop @or q becomes clear(q)." */
static enum independent_rule left_is_nop(struct node **at)
{
    bool is_and = (*at)->kind == AT_AND;
    become_right(at);
    if (is_and)
        return RULE_NOP_AND;
    *at = ind_clear(*at);
    return RULE_NOP_OR;
}

/* "With p blocked, p @and @nop becomes p, p @or @nop becomes clear(p)" */
static enum independent_rule right_is_nop(struct node **at)
{
    bool is_and = (*at)->kind == AT_AND;
    become_left(at);
    if (is_and)
        return RULE_AND_NOP;
    *at = ind_clear(*at);
    return RULE_OR_NOP;
}

/* The left is blocked, so the right decides: "p with a break on the right
 * becomes clear(p);break"; "the right of @and, @or steps only while the left
 * is blocked." */
static enum independent_rule step_right(struct description *d,
                                        struct node **at)
{
    struct node *n = *at;
    bool is_and = n->kind == AT_AND;
    switch (n->right->kind) {
    case NOTHING:
        return right_is_nop(at);
    case BREAK:
        become_clear_then_break(at, n->left, n->right);
        return is_and ? RULE_AND_BREAK : RULE_OR_BREAK;
    default:
        ind_met_rule(is_and ? RULE_WITHIN_AND_RIGHT : RULE_WITHIN_OR_RIGHT);
        return step_tree(d, &n->right);
    }
}

/* "break on the left of either becomes clear(q);break." */
static enum independent_rule step_at_and_or(struct description *d,
                                            struct node **at)
{
    struct node *n = *at;
    bool is_and = n->kind == AT_AND;
    if (n->left->kind == NOTHING)
        return left_is_nop(at);
    if (n->left->kind == BREAK) {
        become_clear_then_break(at, n->right, n->left);
        return is_and ? RULE_BREAK_AND : RULE_BREAK_OR;
    }
    if (ind_blocked(n->left, d->level))
        return step_right(d, at);
    ind_met_rule(is_and ? RULE_WITHIN_AND_LEFT : RULE_WITHIN_OR_LEFT);
    return step_tree(d, &n->left);
}

/* "Otherwise the left of a sequence, @loop, @and or @or steps." */
static enum independent_rule step_tree(struct description *d, struct node **at)
{
    switch ((*at)->kind) {
    case SET:
    case ADD:
    case COPY:
    case SUBTRACT:
    case LESS:
    case DIVIDE:
    case OUTPUT:
        return act(d, *at);
    case EMIT:
        return emit(d, *at);
    case AT_CANRUN:
        return can_run(d, *at);
    case IF:
        return branch(d, at);
    case SEQUENCE:
        return step_sequence(d, at);
    case LOOP:
        return step_loop(*at);
    case AT_LOOP:
        return step_at_loop(d, *at);
    case AND:
    case OR:
        return step_and_or(d, *at);
    case AT_AND:
    case AT_OR:
        return step_at_and_or(d, at);
    default:
        return RULE_NONE;
    }
}

/* "push: pending event, level up by 1, awake" */
static enum independent_rule push(struct description *d)
{
    struct event event = d->pending;
    d->pending.pending = NO_EVENT;
    d->pending.number = 0;
    d->level++;
    if (d->level > d->highest)
        d->highest = d->level;
    d->tree = ind_awake(d->tree, event);
    return RULE_PUSH;
}

/* "Either ends at level 0." */
bool ind_ended(const struct description *d)
{
    return d->level == 0 && d->pending.pending == NO_EVENT;
}

/* "Each of these is one step. With an event pending only push applies."  "pop:
 * level above 0, no event, tree @nop or blocked: level down by 1."  RULE_NONE
 * means that no rule applies, and nothing was changed. */
enum independent_rule ind_step(struct description *d)
{
    enum independent_rule rule;
    if (d->pending.pending != NO_EVENT) {
        rule = push(d);
    } else if (d->level > 0 &&
               (d->tree->kind == NOTHING || ind_blocked(d->tree, d->level))) {
        d->level--;
        rule = RULE_POP;
    } else {
        rule = step_tree(d, &d->tree);
    }
    ind_met_rule(rule);
    return rule;
}
