/*
 * The second solver: the most that any packing can cover, by document 000's network flow (section 2.1).
 * It knows nothing of document 01's search.
 */
#ifndef FLOW_H
#define FLOW_H

#include "plant.h"

/* The most of the first k of the order that a packing can cover, within each one's own limit. */
int flow_most(const struct plant *p, int k);

/* The holders of a flow that covers the most of all gateways: holder[v] is who holds v, or NOBODY. Returns the most. */
int flow_holders(const struct plant *p, int *holder);

/* most[k], for k from 0 to n: what flow_most gives for k. */
void flow_every(const struct plant *p, int *most);

#endif
