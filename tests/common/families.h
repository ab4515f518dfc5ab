/* Plants of many shapes, from random numbers. */
#ifndef FAMILIES_H
#define FAMILIES_H

#include "plant.h"
#include "rng.h"

struct family {
    const char *name;
    void (*link)(struct plant *p, struct rng *r); /* links an opened plant */
    bool as_made;                                 /* links and order stay as made */
};

extern const struct family families[];
extern const int family_count;

/* One that is not among them: hubs with too few places for all leaves, so that some are left. */
extern const struct family scarce;

/* A plant of n gateways of one family, mostly with gateways, links and order shuffled; limit 0 for any. */
void family_make(const struct family *f, struct plant *p, struct rng *r, int n, int limit);

/* The same in a file of version 2, with a limit for each gateway by chance; the shape goes by these. */
void family_make_own(const struct family *f, struct plant *p, struct rng *r, int n);

/* One after the other, and then from the first again: all families and the one not among them; how many these are. */
const struct family *family_in_turn(int i);
extern const int family_turn;

/* The family of that name. */
const struct family *family_named(const char *name);

/* The graph number bits of n gateways: each bit that is set is a link. */
void family_graph(struct plant *p, int n, int limit, int bits);

/* Makes every graph of up to four gateways in every order, with several limits, and calls check for each. */
void family_small(struct plant *p, void (*check)(struct rng *r), struct rng *r);

/* Random links up to m of them in all. */
void family_fill(struct plant *p, struct rng *r, int m);

/*
 * As many gateways as a plant can have: each but the hubs at so many of the hubs by chance (0 and 0 for no hubs), and random
 * links up to m of them in all.
 */
void family_largest(struct plant *p, struct rng *r, int hubs, int limit, int each, int m);

#endif
