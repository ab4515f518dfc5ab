/* One plant: the answers of why_alone held to all that is known of them. */
#ifndef JUDGE_WHY_H
#define JUDGE_WHY_H

#include "answer.h"
#include "rng.h"
#include "why.h"

/* A plant whose gateways are asked for. */
struct asked {
    const struct plant *plant;
    struct answer plan;       /* what plan_groups gives */
    int holder[MAX_GATEWAYS]; /* by the papers' placing; the papers' walk goes by them, the facts do not */
};

/* Calls plan_groups for the plant. NULL, or why there is no plan to go by. */
const char *judge_ask(const struct plant *p, struct asked *q);

/* Calls why_alone for a gateway that plan_groups leaves alone. NULL and its sets, or what is wrong with the answer. */
const char *judge_left(const struct asked *q, int gateway, struct rng *r, struct why *w);

/* Calls why_alone for any other number. NULL, or what it did in place of 30. */
const char *judge_not_left(const struct asked *q, uint32_t number, struct rng *r);

/* One test for each gateway, for some numbers past them, and for all second sets together; a plant that fails is shown. */
void judge_gateways(const char *name, const struct plant *p, struct rng *r);

/* The answers that were judged; wide are those with two or more in the second set. */
struct why_met {
    long left, wide;
    long beyond;            /* one in the second set is not linked to the gateway itself */
    long tried, tried_wide; /* the second set is not empty, and all packings were tried */
};

/* One test for each kind: so many were judged. */
void judge_tally_why(const struct why_met *least);

#endif
