/* The packing by its definition, entry by entry, and the choke set's difference. */
#ifndef PACKING_H
#define PACKING_H

#include "answer.h"

/* Whether a leader list is a packing (document 000, Definition 1, written as a list), within each leader's own limit. */
bool packing_is(const struct plant *p, const int *leader);

/* The gateways that have no link once the set is taken away, less the sum of the set's limits. */
int packing_difference(const struct plant *p, const int *choke);

/* How many of the n entries are ALONE. */
int packing_alone(const struct plant *p, const int *leader);

#endif
