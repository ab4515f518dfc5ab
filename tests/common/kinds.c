#include "kinds.h"

#include "chains.h"
#include "quick_link.h"

static struct range all(const struct plant *p)
{
    return (struct range){0, p->n};
}

static void make_sparse(struct plant *p, struct rng *r, int n, enum links links)
{
    (void)links;
    quick_open(p, n, 3);
    quick_fill(p, r, 3 * n / 2, all(p), all(p));
    rng_shuffle(r, p->order, n);
}

static void make_dense(struct plant *p, struct rng *r, int n, enum links links)
{
    (void)links;
    quick_open(p, n, 2);
    quick_fill(p, r, 8 * n, all(p), all(p));
    rng_shuffle(r, p->order, n);
}

/* Hubs that hold sixteen each, all others linked to three or more of them. In the order the hubs come first. */
static void make_with_hubs(struct plant *p, struct rng *r, int n, int hubs, enum links links)
{
    struct range at_hubs = {0, hubs}, others = {hubs, n};
    quick_open(p, n, 16);
    for (int v = hubs; v < n; v++)
        for (int i = 0; i < 3; i++)
            quick_link(p, rng_below(r, hubs), v);
    if (links == MOST_OF_ALL)
        quick_fill(p, r, MAX_LINKS, at_hubs, others);
}

/* One hub for each fifteen others. */
static void make_hubs_first(struct plant *p, struct rng *r, int n, enum links links)
{
    make_with_hubs(p, r, n, n / 16, links);
}

static void make_hubs_last(struct plant *p, struct rng *r, int n, enum links links)
{
    make_with_hubs(p, r, n, n / 16, links);
    for (int i = 0; i < n; i++)
        p->order[i] = n - 1 - i;
}

/* The hubs can hold half of the others. */
static void make_half_alone(struct plant *p, struct rng *r, int n, enum links links)
{
    make_with_hubs(p, r, n, n / 32, links);
    rng_shuffle(r, p->order, n);
}

/* Each linked to the next, or to the next eight. */
static void make_ring(struct plant *p, struct rng *r, int n, enum links links)
{
    quick_open(p, n, 2);
    for (int v = 0; v < n; v++)
        for (int far = 1; far <= (links == USUAL ? 1 : 8); far++)
            quick_link(p, v, (v + far) % n);
    rng_shuffle(r, p->order, n);
}

/* Leaves that move all along a line of hubs, 4 to the power of 3 to 5 gateways in all; more links are between hubs. */
static void make_chains(struct plant *p, struct rng *r, int n, enum links links)
{
    int power = 0;
    while (4 << power < n)
        power++;
    line_make(p, power, 3);
    while (links == MOST_OF_ALL && p->m < MAX_LINKS)
        plant_link(p, rng_below(r, 1 << power), rng_below(r, 1 << power));
}

/* A file of version 2. */
static void make_own_limits(struct plant *p, struct rng *r, int n, enum links links)
{
    quick_open(p, n, 2);
    quick_fill(p, r, links == USUAL ? 3 * n : MAX_LINKS, all(p), all(p));
    for (int v = 0; v < n; v++)
        plant_set_own(p, v, rng_below(r, 256), rng_below(r, 2) == 0 ? 0 : rng_between(r, 2, MAX_LIMIT));
    rng_shuffle(r, p->order, n);
}

const struct kind kinds[] = {
    {"sparse", make_sparse, false},
    {"dense", make_dense, false},
    {"hubs first", make_hubs_first, true},
    {"hubs last", make_hubs_last, true},
    {"half alone", make_half_alone, true},
    {"ring", make_ring, true},
    {"chains", make_chains, true},
    {"own limits", make_own_limits, true},
};

const int kind_count = sizeof kinds / sizeof kinds[0];
