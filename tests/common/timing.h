/* How long the calls, the plain program and the network flow take on a plant. */
#ifndef TIMING_H
#define TIMING_H

#include "plant.h"

/*
 * In seconds. All begin with the bytes of the file. All but count end with the bytes of their answer: flow is the plan by
 * network flow; count is the flow's count alone, how many can be covered, which is no plan.
 */
struct timing {
    double call, plain, recursive, flow, count;
    int alone;
    long moved;
};

/*
 * Times all five. False where the answers differ: the plain program's is to have the call's bytes, the flow's plan to agree
 * with the call's (flow_agrees.h), and the count to be how many the call covers.
 */
bool timing_all(const struct plant *p, struct timing *t);

/* Times plan_groups and the plain program only: with care, or for a first look. False where their answers differ. */
bool timing_two(const struct plant *p, bool with_care, struct timing *t);

#endif
