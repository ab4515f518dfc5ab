/* One plant: the answer of plan_groups_recursive held to all that is known of it. */
#ifndef JUDGE_SHORT_H
#define JUDGE_SHORT_H

#include "answer.h"
#include "rng.h"

/* The answer that the short search and the papers' rules give. */
void judge_short_expect(const struct plant *p, struct answer *a);

/* Calls plan_groups_recursive for the plant, and plan_groups beside it. NULL, or what is wrong with the answer. */
const char *judge_short(const struct plant *p, struct rng *r);

/*
 * After every number of placings, by the tests' own searches: the short one holds the same gateways as the papers' placing,
 * has moved no fewer than must move from the holders before, and has left those placed that plan_groups_after has alone.
 * NULL, or what is not so.
 */
const char *judge_short_kept(const struct plant *p, struct rng *r);

/* The answers that were judged, beside those of plan_groups. */
struct short_met {
    long left;        /* somebody is alone */
    long leaders;     /* the leader lists differ */
    long more, fewer; /* the number moved is higher, or lower */
};

/* One test for each kind: so many were judged. */
void judge_tally_short(const struct short_met *least);

#endif
