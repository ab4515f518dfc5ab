/* Leader lists by other hands, with the choke bytes of plan_groups: which of them check_groups accepts. */
#ifndef JUDGE_OTHERS_H
#define JUDGE_OTHERS_H

#include "plant.h"
#include "rng.h"

/* One test: plan_groups plans the plant, whose lists are judged next. The most that any grouping covers, by the flow. */
int judge_others_begin(const struct plant *p, struct rng *r);

/* Tests a packing of that plant: it is accepted if it covers the most, else refused with 32. */
void judge_other(const char *name, const int *leader);

/* Both for a plant: lists from the network flow, and from groups put together and changed by chance. */
void judge_others(const struct plant *p, struct rng *r);

/* What was judged. */
struct others_met {
    long others, fewer, one_fewer; /* lists that are not ours and cover the most, lists of fewer, and of just one fewer */
};

/* Two tests: so many were judged. */
void judge_tally_others(const struct others_met *least);

#endif
