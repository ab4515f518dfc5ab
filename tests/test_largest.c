/* Large plants, up to 1,024 gateways and 8,192 links, held to all that the small ones are. */
#include "families.h"
#include "judge.h"
#include "tally.h"

static struct plant plant;

static void check(const char *name, struct rng *r)
{
    const char *fault = judge_plant(&plant, r);
    tally(fault == NULL, "%s, n %d, m %d, T %d: %s", name, plant.n, plant.m, plant.limit, fault);
}

/* One of each family, of a few hundred gateways. */
static void large(struct rng *r)
{
    for (int f = 0; f < family_count; f++) {
        family_make(&families[f], &plant, r, rng_between(r, 200, 400), 2 + f % 2);
        check(families[f].name, r);
    }
}

/* All gateways, and random links up to m of them. */
static void largest(struct rng *r, int limit, int m)
{
    family_largest(&plant, r, 0, limit, 0, m);
    check("random links", r);
}

/* Every other gateway linked to each of the hubs, which leaves most of them alone. */
static void largest_hubs(struct rng *r, int hubs, int limit)
{
    plant_open(&plant, MAX_GATEWAYS, limit);
    for (int v = hubs; v < plant.n; v++)
        for (int u = 0; u < hubs; u++)
            plant_link(&plant, u, v);
    family_fill(&plant, r, MAX_LINKS);
    rng_shuffle(r, plant.order, plant.n);
    check("hubs", r);
}

static void largest_of(struct rng *r, const char *name)
{
    family_make(family_named(name), &plant, r, MAX_GATEWAYS, 2);
    check(name, r);
}

int main(void)
{
    struct rng r = {6};
    large(&r);
    largest(&r, 2, MAX_LINKS);
    largest(&r, 16, MAX_LINKS);
    largest(&r, 2, 900);
    largest_hubs(&r, 8, 16);
    largest_hubs(&r, 2, 2);
    largest_of(&r, "ring");
    largest_of(&r, "deep tree");
    largest_of(&r, "chain of rings");
    judge_tally_pairs(500);
    return tally_end();
}
