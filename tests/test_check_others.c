/*
 * Lists by other hands than ours, with the choke bytes of plan_groups: check_groups accepts just those groupings that cover
 * as many as any. They come from the network flow, from groups put together and changed by chance, and, for tiny plants,
 * from all leader lists that there are.
 */
#include "brute.h"
#include "families.h"
#include "judge_others.h"
#include "packing.h"
#include "tally.h"

static struct plant plant;
static int most; /* the most that any grouping covers, by the flow */

static void some_of_each(struct rng *r, int count, int low, int high)
{
    for (int i = 0; i < count * family_count; i++) {
        family_make(&families[i % family_count], &plant, r, rng_between(r, low, high), 0);
        judge_others(&plant, r);
    }
}

/* Tries every entry for gateway v and those after it. */
static void try_from(int v, int *leader, long *best)
{
    if (v == plant.n) {
        if (packing_is(&plant, leader)) {
            judge_other("of all lists", leader);
            *best += plant.n - packing_alone(&plant, leader) == most;
        }
        return;
    }
    for (int i = 0; i <= plant.n; i++) {
        leader[v] = i < plant.n ? i : ALONE;
        try_from(v + 1, leader, best);
    }
}

static void all_lists(const struct family *f, int n, struct rng *r)
{
    int leader[MAX_BRUTE], by_brute[MAX_BRUTE + 1];
    long best = 0;
    family_make(f, &plant, r, n, 0);
    most = judge_others_begin(&plant, r);
    brute_most(&plant, by_brute);
    try_from(0, leader, &best);
    tally(best > 0 && by_brute[n] == most, "%s: %ld lists cover %d, the most by all lists is %d", f->name, best, most,
          by_brute[n]);
}

int main(void)
{
    struct rng r = {25};
    some_of_each(&r, 40, 1, 12);
    some_of_each(&r, 12, 13, 40);
    some_of_each(&r, 2, 41, 120);
    for (int i = 0; i < 10 * family_count; i++)
        all_lists(&families[i % family_count], 1 + i / family_count % 5, &r);
    judge_tally_others(&(struct others_met){.others = 15000, .fewer = 10000, .one_fewer = 5000});
    return tally_end();
}
