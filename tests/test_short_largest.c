/*
 * The short search on large plants, up to 1,024 gateways and 8,192 links; where it goes as deep as it can, to a place free
 * and in vain; and where the number moved needs three bytes.
 */
#include "chains.h"
#include "deep.h"
#include "families.h"
#include "judge_short.h"
#include "lent.h"
#include "placing.h"
#include "short_search.h"
#include "tally.h"

static struct plant plant;

static void check(const char *name, struct rng *r)
{
    const char *fault = judge_short(&plant, r);
    tally(fault == NULL, "%s, n %d, m %d, T %d: %s", name, plant.n, plant.m, plant.limit, fault);
}

/* One of each family, of a few hundred gateways. */
static void large(struct rng *r)
{
    for (int f = 0; f < family_count; f++) {
        family_make(&families[f], &plant, r, rng_between(r, 200, 400), 2 + f % 2);
        check(families[f].name, r);
    }
}

static void largest(const char *name, struct rng *r, int hubs, int limit, int each, int m)
{
    family_largest(&plant, r, hubs, limit, each, m);
    check(name, r);
}

static void largest_of(struct rng *r, const struct family *f)
{
    family_make(f, &plant, r, MAX_GATEWAYS, 2);
    check(f->name, r);
}

/* That the placing at that place of the order moves so many, and goes so deep; and that none goes deeper. */
static void expect_placed(const char *name, int place, int moved, int depth)
{
    static struct placed each[MAX_GATEWAYS];
    int deepest = 0;
    short_each(&plant, each);
    for (int i = 0; i < plant.n; i++)
        deepest = each[i].depth > deepest ? each[i].depth : deepest;
    bool ok = each[place].moved == moved && each[place].depth == depth && deepest == depth;
    tally(ok, "%s, n %d, T %d: %d moved, %d deep, and %d by all", name, plant.n, plant.limit, each[place].moved,
          each[place].depth, deepest);
}

/* The number moved by both calls. */
static void expect_moved(const char *name, long moved, long least)
{
    static struct outcome o;
    static struct answer a, plan;
    lent_plan_short(&plant, AT_END, &o);
    answer_read(&a, plant.n, o.out);
    lent_plan(&plant, AT_END, &o);
    answer_read(&plan, plant.n, o.out);
    tally(a.moved == moved && plan.moved == least, "%s, n %d, T %d: %ld moved, and %ld by plan_groups", name, plant.n,
          plant.limit, a.moved, plan.moved);
}

/* By the papers' placing hub 1 makes way for the one more, so that two move. */
static void deep(int hubs, int limit, struct rng *r)
{
    deep_make(&plant, hubs, limit, PLACE_FREE);
    expect_placed("deep", deep_place(&plant), hubs + 1, hubs + 1);
    expect_moved("deep", plant.n + hubs, plant.n + 1);
    check("deep", r);
    deep_make(&plant, hubs, limit, IN_VAIN);
    expect_placed("deep in vain", deep_place(&plant), hubs, hubs + 1);
    expect_moved("deep in vain", plant.n + hubs - 1, plant.n + 1);
    check("deep in vain", r);
}

/*
 * Where the one more is left, all that the hubs hold are linked to hubs alone, and are no hubs themselves: so there are fewer
 * hubs than in the deep plants.
 */
static void full(int hubs, int limit, struct rng *r)
{
    int one_more = hubs * limit;
    chain_make_full(&plant, hubs, limit);
    expect_placed("a full chain", one_more, 0, hubs + 1);
    expect_moved("a full chain", plant.n - 1, plant.n - 1);
    check("a full chain", r);
    chain_make(&plant, hubs, limit);
    expect_placed("a chain", one_more, hubs + 1, hubs + 1);
    expect_moved("a chain", plant.n + hubs, plant.n + hubs);
    check("a chain", r);
}

/* With T = 2 up to 512 searches within each other, and up to 342 where the one more is left. */
static void as_deep_as_can_be(struct rng *r)
{
    for (int limit = 2; limit <= MAX_LIMIT; limit++) {
        for (int hubs = 3; hubs <= 12; hubs++)
            deep(hubs, limit, r);
        deep(deep_most(limit), limit, r);
        full((MAX_GATEWAYS - 1) / (limit + 1), limit, r);
    }
    for (int hubs = 254; hubs <= 258; hubs++)
        deep(hubs, 2, r);
    deep_make(&plant, deep_most(2), 2, PLACE_FREE);
    tally(plant.n == MAX_GATEWAYS && deep_most(2) == 511, "the deepest plant has %d gateways", plant.n);
}

/* So many placings move hubs + 1 each, and all others one. */
static void swing(int hubs, int pairs, struct rng *r)
{
    swing_make(&plant, hubs, pairs);
    expect_moved("a swing", plant.n + 2L * pairs * hubs, plant.n);
    check("a swing", r);
}

static void swings(struct rng *r)
{
    for (int hubs = 2; hubs <= 9; hubs++)
        for (int pairs = 0; pairs <= 4; pairs++)
            swing(hubs, pairs, r);
    swing(180, 179, r); /* below 65,536 */
    swing(181, 180, r); /* above it */
    swing(256, 255, r);
}

int main(void)
{
    struct rng r = {32};
    large(&r);
    largest("random links", &r, 0, 2, 0, MAX_LINKS);
    largest("random links", &r, 0, 16, 0, MAX_LINKS);
    largest("random links", &r, 0, 2, 0, 900);
    largest("hubs", &r, 8, 16, 30, MAX_LINKS);
    largest("hubs", &r, 341, 2, 3, 0);
    largest("hubs", &r, 300, 2, 2, 0);
    largest("hubs", &r, 60, 16, 4, 0);
    largest_of(&r, family_named("ring"));
    largest_of(&r, family_named("deep tree"));
    largest_of(&r, family_named("chain of rings"));
    largest_of(&r, &scarce);
    as_deep_as_can_be(&r);
    swings(&r);
    judge_tally_short(&(struct short_met){.left = 20, .leaders = 300, .more = 300});
    return tally_end();
}
