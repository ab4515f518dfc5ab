/* Document 01's "Placing" and the choke set's walk, as their paragraphs say, by own limits. The plain reference. */
#ifndef PLACING_H
#define PLACING_H

#include "holders.h"
#include "plant.h"

/*
 * Places the first k of the order; holder[v] is who then holds v, or NOBODY. Returns the number moved: for each placing
 * the gateways whose holder changed, the new one included, summed over all.
 */
long placing_first(const struct plant *p, int k, int *holder);

/* Places v beside those held; returns how many it moved. */
int placing_one(const struct plant *p, int v, int *holder);

/* moved[i], for each place i of the order: how many that placing moves. */
void placing_each(const struct plant *p, int *moved);

/* For any holders: choke[v] is 1 where v is in the choke set, else 0. */
void placing_choke(const struct plant *p, const int *holder, int *choke);

/*
 * The same walk from v only, which nobody holds: queued[x] is 1 where x is v or joined the queue, seen[u] where u was seen
 * as a neighbour; else they are 0.
 */
void placing_walk(const struct plant *p, const int *holder, int v, int *queued, int *seen);

#endif
