/* Who is linked to whom: each gateway's neighbours in order of arrival. */
#ifndef NEIGHBOURS_H
#define NEIGHBOURS_H

#include "plant.h"

struct neighbours {
    int start[MAX_GATEWAYS + 1];
    int list[2 * MAX_LINKS]; /* x's, in order of arrival, from start[x] up to start[x + 1] */
};

void neighbours_gather(const struct plant *p, struct neighbours *near);

#endif
