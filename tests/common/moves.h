/* Other groupings that cover as many: links taken by chance, each as a group of its two ends where nobody loses by it. */
#ifndef MOVES_H
#define MOVES_H

#include "plant.h"
#include "rng.h"

/* Changes a packing so many times at most. It stays one, and never covers fewer gateways. */
void moves_make(const struct plant *p, struct rng *r, int times, int *leader);

/*
 * Takes one gateway out of its group: a member that has others beside it, so that one fewer is covered, or else all of a
 * group of two. False where nobody is covered.
 */
bool moves_leave(const struct plant *p, struct rng *r, int *leader);

#endif
