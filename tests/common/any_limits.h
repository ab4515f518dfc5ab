/* A limit for each gateway, by chance. */
#ifndef ANY_LIMITS_H
#define ANY_LIMITS_H

#include "plant.h"
#include "rng.h"

/* Gives every gateway a kind and a limit byte, in one of several ways: own limits are above T, below it and T itself. */
void any_limits(struct plant *p, struct rng *r);

/* Another T, and the one before as the limit byte of every gateway, with any kinds; so that all limits stay as they are. */
void limits_for_all(struct plant *p, struct rng *r, int t);

#endif
