/* The fewest gateways whose holder must change, by trying every set of holders there is. For small plants. */
#ifndef BRUTE_LEAST_H
#define BRUTE_LEAST_H

#include "plant.h"

struct fewest {
    int moved; /* the fewest gateways at which other holders differ */
    int ways;  /* how many sets of holders differ at so few */
};

/* Whether the plant has few enough sets of holders. */
bool brute_can_try(const struct plant *p);

/*
 * Over all holders, along links and within each one's limit, that hold exactly those held and v, which is held by nobody
 * yet. Both numbers are 0 where there are none.
 */
struct fewest brute_least(const struct plant *p, const int *holder, int v);

#endif
