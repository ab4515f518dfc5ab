/* What two sets must be so that they say why a gateway is alone, seen from plant and leader list: no holders in it. */
#ifndef WHY_FACTS_H
#define WHY_FACTS_H

#include "why.h"

/* For a gateway that is alone in the leader list: NULL, or the fault that the two sets have. */
const char *why_fault(const struct plant *p, const int *leader, int gateway, const struct why *w);

/*
 * For sets without a fault: whether nothing can be left out of them. All of the first but one are covered, and only those of
 * the second can lead so many: each leads as many of them as it can and nobody else. So from the gateway to all that are
 * linked to it, from these to all whom they lead, and so on, one never leaves the sets, and must come to all that is in
 * them.
 */
bool why_is_smallest(const struct plant *p, const int *leader, int gateway, const struct why *w);

/* Whether by the flow any grouping covers at most one gateway less than all of the first set, and some covers so many. */
bool why_misses_one(const struct plant *p, const struct why *w);

#endif
