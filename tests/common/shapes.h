/* The shapes of the families: each links an opened plant. The last four also choose its order. */
#ifndef SHAPES_H
#define SHAPES_H

#include "plant.h"
#include "rng.h"

void link_nothing(struct plant *p, struct rng *r);
void link_dense(struct plant *p, struct rng *r);
void link_sparse(struct plant *p, struct rng *r);
void link_one_ring(struct plant *p, struct rng *r);
void link_ring_chain(struct plant *p, struct rng *r);
void link_ring_trees(struct plant *p, struct rng *r);
void link_star(struct plant *p, struct rng *r);
void link_hubs(struct plant *p, struct rng *r);
void link_bipartite(struct plant *p, struct rng *r);
void link_tree(struct plant *p, struct rng *r);
void link_deep_tree(struct plant *p, struct rng *r);
void link_near_tree(struct plant *p, struct rng *r);
void link_scarce(struct plant *p, struct rng *r);

void link_crowd(struct plant *p, struct rng *r);
void link_stairs(struct plant *p, struct rng *r);
void link_bare_cycle(struct plant *p, struct rng *r);
void link_hung_cycle(struct plant *p, struct rng *r);

#endif
