/* Links as by plant_link, but found in a table and not by going through all of them: for large plants by the thousand. */
#ifndef QUICK_LINK_H
#define QUICK_LINK_H

#include "plant.h"
#include "rng.h"

/* Gateways from one number to before another. */
struct range {
    int from, end;
};

/* As plant_open. Only the plant that was opened last can be linked so. */
void quick_open(struct plant *p, int n, int limit);

/* As plant_link. */
void quick_link(struct plant *p, int a, int b);

/* Random links between two ranges, which may be the same, up to m links in the plant. */
void quick_fill(struct plant *p, struct rng *r, int m, struct range a, struct range b);

#endif
