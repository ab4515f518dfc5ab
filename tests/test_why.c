/*
 * Why a gateway is alone, on plants of many shapes: every gateway is asked for. What why_alone gives is held to the plant
 * and the bytes of plan_groups, to the flow, to all packings where these are few, and to the papers' walk.
 */
#include "families.h"
#include "judge_why.h"
#include "tally.h"

static struct plant plant;

static void check_small(struct rng *r)
{
    judge_gateways("a graph", &plant, r);
}

/* Limit 0 for any. */
static void some(const struct family *f, struct rng *r, int count, int low, int high, int limit)
{
    for (int i = 0; i < count; i++) {
        family_make(f, &plant, r, rng_between(r, low, high), limit);
        judge_gateways(f->name, &plant, r);
    }
}

static void too_few_places(struct rng *r)
{
    some(&scarce, r, 3000, 7, 10, 2);
    some(&scarce, r, 500, 7, 40, 0);
    some(&scarce, r, 30, 41, 120, 0);
    for (int limit = 2; limit <= MAX_LIMIT; limit++)
        some(&scarce, r, 10, limit + 2, 5 * limit + 6, limit);
}

int main(void)
{
    static const char *const crowded[] = {"hubs", "stairs", "star"};
    struct rng r = {17};
    family_small(&plant, check_small, &r);
    for (int f = 0; f < family_count; f++) {
        some(&families[f], &r, 150, 3, 12, 0);
        some(&families[f], &r, 15, 13, 40, 0);
    }
    for (int i = 0; i < 3; i++)
        some(family_named(crowded[i]), &r, 4, 41, 120, 2 + i);
    too_few_places(&r);
    judge_tally_why(&(struct why_met){.left = 10000, .wide = 3500, .beyond = 2500, .tried = 2000, .tried_wide = 800});
    return tally_end();
}
