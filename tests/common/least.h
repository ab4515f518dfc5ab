/*
 * The fewest gateways whose holder must change so that one more is held, by a shortest way in document 000's network
 * flow (section 2.1). It knows nothing of document 01's search.
 */
#ifndef LEAST_H
#define LEAST_H

#include "plant.h"

/* For holders along links and within limits that leave v without one: the fewest, v included; 0 where v can't be held. */
int least_moved(const struct plant *p, const int *holder, int v);

#endif
