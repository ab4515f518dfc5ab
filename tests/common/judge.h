/* One plant: the calls' answers held to all that is known of them. */
#ifndef JUDGE_H
#define JUDGE_H

#include "answer.h"
#include "rng.h"

/* The answer that the papers' placing and rules give after k placings. */
void judge_expect(const struct plant *p, int k, struct answer *a);

/* Calls plan_groups for the plant. NULL, or what is wrong with the answer. */
const char *judge_plant(const struct plant *p, struct rng *r);

/* Calls plan_groups_after for k placings; most is what flow_every gives. NULL and the answer, or what is wrong with it. */
const char *judge_after(const struct plant *p, const int *most, int k, struct rng *r, struct answer *a);

/* One test: so many groups of two were judged in which the lower number is the earlier one, and in which the higher is. */
void judge_tally_pairs(long least);

#endif
