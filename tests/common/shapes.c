#include "shapes.h"

#include "families.h"

void link_nothing(struct plant *p, struct rng *r)
{
    (void)p;
    (void)r;
}

/* Links each two gateways with a chance of percent in a hundred. */
static void link_by_chance(struct plant *p, struct rng *r, int percent)
{
    for (int a = 0; a < p->n; a++)
        for (int b = a + 1; b < p->n; b++)
            if (rng_below(r, 100) < percent)
                plant_link(p, a, b);
}

void link_dense(struct plant *p, struct rng *r)
{
    link_by_chance(p, r, rng_between(r, 40, 100));
}

void link_sparse(struct plant *p, struct rng *r)
{
    family_fill(p, r, rng_between(r, p->n / 3, 3 * p->n / 2));
}

/* A ring of the gateways from start to before end; a single link where there are two. */
static void link_ring(struct plant *p, int start, int end)
{
    for (int v = start; v + 1 < end; v++)
        plant_link(p, v, v + 1);
    plant_link(p, start, end - 1);
}

void link_one_ring(struct plant *p, struct rng *r)
{
    (void)r;
    if (p->n > 0)
        link_ring(p, 0, p->n);
}

void link_ring_chain(struct plant *p, struct rng *r)
{
    int start = 0;
    while (start < p->n) {
        int end = start + rng_between(r, 3, 8);
        if (end > p->n)
            end = p->n;
        link_ring(p, start, end);
        if (end < p->n)
            plant_link(p, rng_between(r, start, end - 1), end);
        start = end;
    }
}

/* A ring with trees hanging from it. */
void link_ring_trees(struct plant *p, struct rng *r)
{
    int ring = rng_between(r, 1, p->n);
    if (p->n > 0)
        link_ring(p, 0, ring);
    for (int v = ring; v < p->n; v++)
        plant_link(p, rng_below(r, v), v);
}

void link_star(struct plant *p, struct rng *r)
{
    (void)r;
    for (int v = 1; v < p->n; v++)
        plant_link(p, 0, v);
}

/* Few hubs and many leaves, each leaf at one to three hubs. */
void link_hubs(struct plant *p, struct rng *r)
{
    int hubs = rng_between(r, 1, 1 + p->n / 5);
    for (int v = hubs; v < p->n; v++)
        for (int times = rng_between(r, 1, 3); times > 0; times--)
            plant_link(p, rng_below(r, hubs), v);
    if (rng_below(r, 2) == 0)
        link_ring(p, 0, hubs);
}

void link_bipartite(struct plant *p, struct rng *r)
{
    int left = rng_between(r, 0, p->n);
    for (int a = 0; a < left; a++)
        for (int b = left; b < p->n; b++)
            plant_link(p, a, b);
}

void link_tree(struct plant *p, struct rng *r)
{
    for (int v = 1; v < p->n; v++)
        plant_link(p, rng_below(r, v), v);
}

/* Each gateway hangs from one of the last few, which makes deep trees. */
void link_deep_tree(struct plant *p, struct rng *r)
{
    for (int v = 1; v < p->n; v++)
        plant_link(p, rng_between(r, v < 3 ? 0 : v - 3, v - 1), v);
}

/* A tree with a few links more. */
void link_near_tree(struct plant *p, struct rng *r)
{
    link_tree(p, r);
    family_fill(p, r, p->m + rng_between(r, 1, 1 + p->n / 6));
}

/*
 * Hubs that have too few places for all leaves, so that some are left; each leaf is at one hub or two, by which walks go
 * from hub to hub. A few hubs are linked.
 */
void link_scarce(struct plant *p, struct rng *r)
{
    int hubs = 0;
    for (int rest = p->n - 1; rest > p->limits[hubs]; hubs++)
        rest -= p->limits[hubs] + 1;
    for (int v = hubs; v < p->n && hubs > 0; v++)
        for (int times = rng_between(r, 1, 2); times > 0; times--)
            plant_link(p, rng_below(r, hubs), v);
    for (int u = rng_below(r, 4); u + 1 < hubs; u += rng_between(r, 1, 4))
        plant_link(p, u, u + 1);
}
