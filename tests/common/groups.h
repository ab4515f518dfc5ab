/* The groups of a leader list that is a packing, seen from the list and the order alone. */
#ifndef GROUPS_H
#define GROUPS_H

#include "plant.h"

/* Groups of two, counted by which of the two numbers stands earlier in the order. */
struct pairs_met {
    long lower, higher;
};

/* Whether in every group of two the one earlier in the order leads. */
bool groups_pairs_in_order(const struct plant *p, const int *leader);

/* Adds the list's groups of two to those met. */
void groups_count_pairs(const struct plant *p, const int *leader, struct pairs_met *met);

/* Whether the same gateways of n are alone in both lists. */
bool groups_same_covered(int n, const int *a, const int *b);

/* Whether both lists have the same groups, whoever leads them. */
bool groups_same_sets(int n, const int *a, const int *b);

/* Whether each group of more than two of the first list has the same leader in the second. */
bool groups_same_leaders(int n, const int *a, const int *b);

#endif
