#include "flow_agrees.h"

#include <string.h>

#include "packing.h"

bool flow_agrees(const struct plant *p, const uint8_t *by_flow, const uint8_t *by_call)
{
    static struct answer flow, call;
    answer_read(&flow, p->n, by_flow);
    answer_read(&call, p->n, by_call);
    return packing_is(p, flow.leader) && packing_alone(p, flow.leader) == packing_alone(p, call.leader) &&
           memcmp(flow.choke, call.choke, (size_t)p->n * sizeof flow.choke[0]) == 0;
}
