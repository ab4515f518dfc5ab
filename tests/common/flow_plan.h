/*
 * A plan by network flow, from the file's bytes to the answer's, for tests/bench: plain_plan with the flow of flow.h in
 * place of its search.
 */
#ifndef FLOW_PLAN_H
#define FLOW_PLAN_H

#include "plant.h"

/*
 * The file is the plant's own; the network is built from the plant. Gives the number that plain_plan gives, and writes the
 * leaders of a packing that covers the most of all gateways, not those that the order prefers; the choke set, which is the
 * same for every such packing; and 0 for the number moved, of which a flow knows nothing.
 */
uint32_t flow_plan(const struct plant *p, const uint8_t *file, size_t len, uint8_t *out, size_t out_len);

#endif
