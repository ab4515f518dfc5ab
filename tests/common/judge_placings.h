/* One plant while it is being placed: each answer of plan_groups_after held to all that is known, and to the one before. */
#ifndef JUDGE_PLACINGS_H
#define JUDGE_PLACINGS_H

#include "plant.h"
#include "rng.h"

/* One test after each number of placings, until one is at fault; the plant is shown then. */
void judge_every_placing(const char *name, const struct plant *p, struct rng *r);

/* The same after seven numbers of them, where every one would take long. For one gateway or more. */
void judge_some_placings(const char *name, const struct plant *p, struct rng *r);

#endif
