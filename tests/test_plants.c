/* Plants of many shapes: the answer is a packing, as good as the flow's over every first k, and the rules' own. */
#include "families.h"
#include "judge.h"
#include "tally.h"

static struct plant plant;

static void check(const char *name, int number, struct rng *r)
{
    const char *fault = judge_plant(&plant, r);
    tally(fault == NULL, "%s %d: %s", name, number, fault);
    if (fault != NULL)
        plant_print(&plant);
}

static void some_of_each(struct rng *r, int count, int low, int high)
{
    for (int f = 0; f < family_count; f++) {
        for (int i = 0; i < count; i++) {
            family_make(&families[f], &plant, r, rng_between(r, low, high), 0);
            check(families[f].name, i, r);
        }
    }
}

static void check_small(struct rng *r)
{
    check("graph of gateways", plant.n, r);
}

int main(void)
{
    struct rng r = {5};
    family_small(&plant, check_small, &r);
    some_of_each(&r, 10, 0, 2);
    some_of_each(&r, 250, 3, 12);
    some_of_each(&r, 60, 13, 40);
    some_of_each(&r, 12, 41, 120);
    judge_tally_pairs(5000);
    return tally_end();
}
