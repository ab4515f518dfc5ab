/*
 * The short search on plants of many shapes: the answer is the tests' own, byte for byte; it covers the same gateways as
 * plan_groups and has its choke bytes, and check_groups accepts it. After every number of placings both searches hold the
 * same gateways.
 */
#include "families.h"
#include "judge_short.h"
#include "tally.h"

static struct plant plant;

static void check(const char *name, int number, struct rng *r)
{
    const char *fault = judge_short(&plant, r);
    tally(fault == NULL, "%s %d: %s", name, number, fault);
    if (fault != NULL)
        plant_print(&plant);
}

static void check_kept(const char *name, int number, struct rng *r)
{
    const char *fault = judge_short_kept(&plant, r);
    tally(fault == NULL, "%s %d, placing by placing: %s", name, number, fault);
    if (fault != NULL)
        plant_print(&plant);
}

static void some_of(const struct family *f, struct rng *r, int count, int low, int high)
{
    for (int i = 0; i < count; i++) {
        family_make(f, &plant, r, rng_between(r, low, high), 0);
        check(f->name, i, r);
        if (plant.m <= 1000)
            check_kept(f->name, i, r);
    }
}

static void some_of_each(struct rng *r, int count, int low, int high)
{
    for (int f = 0; f < family_count; f++)
        some_of(&families[f], r, count, low, high);
    some_of(&scarce, r, count, low, high);
}

/* Each limit as often as the others, with hubs that are soon full. */
static void every_limit(struct rng *r, int count)
{
    for (int i = 0; i < count; i++) {
        int limit = 2 + i % (MAX_LIMIT - 1);
        family_make(i % 2 == 0 ? &scarce : family_named("crowd"), &plant, r, rng_between(r, 2 * limit, 5 * limit), limit);
        check("each limit", i, r);
    }
}

static void check_small(struct rng *r)
{
    check("graph of gateways", plant.n, r);
    check_kept("graph of gateways", plant.n, r);
}

int main(void)
{
    struct rng r = {31};
    family_small(&plant, check_small, &r);
    some_of_each(&r, 10, 0, 2);
    some_of_each(&r, 300, 3, 12);
    some_of_each(&r, 60, 13, 40);
    some_of_each(&r, 8, 41, 120);
    every_limit(&r, 1500);
    judge_tally_short(&(struct short_met){.left = 3000, .leaders = 1500, .more = 2000, .fewer = 5});
    return tally_end();
}
