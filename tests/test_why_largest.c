/*
 * Why a gateway is alone in the largest plants, 1,024 gateways and up to 8,192 links, of which hundreds are alone: some of
 * these are asked for, and held to all that those of small plants are.
 */
#include "families.h"
#include "judge_why.h"
#include "tally.h"

static struct plant plant;
static struct asked asked;

/* Lists those that are alone, or those that are not; how many. */
static int list_by(bool alone, int *list)
{
    int count = 0;
    for (int v = 0; v < plant.n; v++)
        if ((asked.plan.leader[v] == ALONE) == alone)
            list[count++] = v;
    return count;
}

/* Asks for two or more that are alone, from the lowest number to the highest, and for one that is not. */
static void check(const char *name, int samples, int least, struct rng *r)
{
    static struct why w;
    int alone[MAX_GATEWAYS], covered[MAX_GATEWAYS];
    const char *fault = judge_ask(&plant, &asked);
    int count = fault == NULL ? list_by(true, alone) : 0, others = plant.n - count;
    tally(fault == NULL && count >= least, "%s: only %d are alone, %s", name, count, fault ? fault : "too few");
    for (int i = 0; i < samples && count >= samples; i++) {
        int v = alone[i * (count - 1) / (samples - 1)];
        fault = judge_left(&asked, v, r, &w);
        tally(fault == NULL, "%s, n %d, m %d, T %d, gateway %d: %s", name, plant.n, plant.m, plant.limit, v, fault);
    }
    if (count == 0 || others == 0)
        return;
    list_by(false, covered);
    fault = judge_not_left(&asked, (uint32_t)covered[rng_below(r, others)], r);
    tally(fault == NULL, "%s, one that is covered: %s", name, fault);
}

int main(void)
{
    struct rng r = {19};
    family_largest(&plant, &r, 8, 4, 30, MAX_LINKS);
    tally(plant.m == MAX_LINKS, "the largest plant has only %d links", plant.m);
    check("few hubs", 2, 300, &r);
    family_largest(&plant, &r, 200, 2, 3, 0);
    check("hubs, and leaves at three", 2, 300, &r);
    family_largest(&plant, &r, 300, 2, 2, 0);
    check("hubs, and leaves at two", 8, 100, &r);
    family_largest(&plant, &r, 200, 2, 1, 0);
    check("stars", 25, 300, &r);
    family_largest(&plant, &r, 1, 16, 0, 0);
    check("no links", 5, MAX_GATEWAYS, &r);
    judge_tally_why(&(struct why_met){.left = 42, .wide = 8, .beyond = 6});
    return tally_end();
}
