/* Whether a plan by network flow goes with that of plan_groups, which may have other groups. */
#ifndef FLOW_AGREES_H
#define FLOW_AGREES_H

#include "plant.h"

/* Of the bytes of both answers: the flow's leaders are a packing that covers as many, and the choke sets are the same. */
bool flow_agrees(const struct plant *p, const uint8_t *by_flow, const uint8_t *by_call);

#endif
