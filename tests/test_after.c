/* Plants while they are being placed: the call after every number of placings, held to all that is known of it. */
#include "families.h"
#include "judge.h"
#include "judge_placings.h"
#include "tally.h"

static struct plant plant;

static void check_small(struct rng *r)
{
    judge_every_placing("a graph", &plant, r);
}

static void some_of_each(struct rng *r, int count, int low, int high)
{
    for (int i = 0; i < count * family_count; i++) {
        const struct family *f = &families[i % family_count];
        family_make(f, &plant, r, rng_between(r, low, high), 0);
        if (plant.m > 1000)
            judge_some_placings(f->name, &plant, r);
        else
            judge_every_placing(f->name, &plant, r);
    }
}

static void large(struct rng *r)
{
    for (int f = 0; f < family_count; f++) {
        family_make(&families[f], &plant, r, rng_between(r, 200, 300), 2 + f % 2);
        judge_some_placings(families[f].name, &plant, r);
    }
}

static void largest(struct rng *r)
{
    static const char *const names[] = {"hubs", "deep tree", "chain of rings"};
    for (int i = 0; i < 3; i++) {
        family_make(family_named(names[i]), &plant, r, MAX_GATEWAYS, 2 + i);
        judge_some_placings(names[i], &plant, r);
    }
    family_largest(&plant, r, 0, 2, 0, MAX_LINKS);
    judge_some_placings("random links", &plant, r);
}

int main(void)
{
    struct rng r = {11};
    family_small(&plant, check_small, &r);
    some_of_each(&r, 250, 3, 12);
    some_of_each(&r, 40, 13, 40);
    some_of_each(&r, 4, 41, 120);
    large(&r);
    largest(&r);
    judge_tally_pairs(50000);
    return tally_end();
}
