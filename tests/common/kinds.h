/* The kinds of plants that tests/bench times. */
#ifndef KINDS_H
#define KINDS_H

#include "plant.h"
#include "rng.h"

/* How many links a plant of a kind has: as many as go with its gateways, or as many as a plant can have. */
enum links { USUAL, MOST_OF_ALL };

struct kind {
    const char *name;
    void (*make)(struct plant *p, struct rng *r, int n, enum links links);
    bool has_most; /* whether such a plant can have as many links as a plant can have, and more than usual */
};

extern const struct kind kinds[];
extern const int kind_count;

#endif
