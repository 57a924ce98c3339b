/* Nodes of a tree: made, copied, freed, counted, compared. */
#include <stdio.h>
#include <stdlib.h>

#include "internal.h"

/* A new node without name and number. */
struct node *ind_node(uint32_t kind, uint32_t place, struct node *left,
                      struct node *right)
{
    struct node *n = malloc(sizeof *n);
    if (n == NULL) {
        fputs("independent: out of memory\n", stderr);
        exit(2);
    }
    n->kind = kind;
    n->place = place;
    n->name = 0;
    n->number = 0;
    n->left = left;
    n->right = right;
    ind_met_kind(kind);
    return n;
}

/* The program from this place on, as a tree. */
struct node *ind_program_tree(const struct program *p, size_t place)
{
    const struct record *r = &p->records[place];
    struct node *n = ind_node(r->kind, (uint32_t)place, NULL, NULL);
    n->name = r->name;
    n->number = r->number;
    if (ind_children(r->kind) >= 1)
        n->left = ind_program_tree(p, place + 1);
    if (ind_children(r->kind) == 2)
        n->right = ind_program_tree(p, ind_second_child(p, place));
    return n;
}

struct node *ind_copy(const struct node *n)
{
    struct node *copy;
    if (n == NULL)
        return NULL;
    copy = ind_node(n->kind, n->place, ind_copy(n->left), ind_copy(n->right));
    copy->name = n->name;
    copy->number = n->number;
    return copy;
}

void ind_free(struct node *n)
{
    if (n == NULL)
        return;
    ind_free(n->left);
    ind_free(n->right);
    free(n);
}

size_t ind_size(const struct node *n)
{
    return n == NULL ? 0 : 1 + ind_size(n->left) + ind_size(n->right);
}

/* Same kinds, names, numbers and places; the place of a @nop that a rule made
 * says nothing, so a kind 0 is compared without it. */
bool ind_same_tree(const struct node *a, const struct node *b)
{
    if (a == NULL || b == NULL)
        return a == b;
    if (a->kind != b->kind || a->name != b->name || a->number != b->number)
        return false;
    if (a->kind != NOTHING && a->place != b->place)
        return false;
    return ind_same_tree(a->left, b->left) &&
           ind_same_tree(a->right, b->right);
}
