/*
 * Plants of many shapes with a limit for each gateway, above T and below it: every call's answer held to all that is known
 * of it, and, in tiny plants, to all leader lists there are. Up to the longest file.
 */
#include "any_limits.h"
#include "brute.h"
#include "deep.h"
#include "families.h"
#include "flow.h"
#include "judge.h"
#include "judge_check.h"
#include "judge_placings.h"
#include "judge_short.h"
#include "judge_why.h"
#include "lent.h"
#include "packing.h"
#include "tally.h"

enum { HUBS = 100, EXPLAINED = 2 };

static struct plant plant;

/* How often own limits let more be covered than T for all does, and how often fewer; and groups above T. */
static long more, fewer, above;

static void tell(const char *name, const char *what, const char *fault)
{
    tally(fault == NULL, "%s, n %d, m %d, T %d, %s: %s", name, plant.n, plant.m, plant.limit, what,
          fault ? fault : "good");
    if (fault != NULL)
        plant_print(&plant);
}

static void count(const struct answer *a)
{
    static struct plant common;
    int members[MAX_GATEWAYS] = {0}, covered = answer_covered(&plant, a->leader, plant.n);
    common = plant;
    plant_forget_own(&common);
    int most = flow_most(&common, common.n);
    more += covered > most;
    fewer += covered < most;
    for (int v = 0; v < plant.n; v++)
        if (a->leader[v] != ALONE && a->leader[v] != v && ++members[a->leader[v]] == plant.limit + 1)
            above++;
}

/* The plan by both searches, and the lists of the first checked; whether there are any. */
static bool check_plans(const char *name, struct rng *r, struct asked *q)
{
    tell(name, "the plan", judge_plant(&plant, r));
    tell(name, "the short search", judge_short(&plant, r));
    const char *fault = judge_ask(&plant, q);
    tell(name, "the lists", fault);
    if (fault != NULL)
        return false;
    judge_number(0, &plant, q->plan.leader, q->plan.choke, name);
    count(&q->plan);
    return true;
}

/* After some numbers of placings. */
static void check_some(const char *name, struct rng *r)
{
    static struct asked q;
    check_plans(name, r, &q);
    judge_some_placings(name, &plant, r);
}

/* Placing by placing, and gateway by gateway. */
static void check_whole(const char *name, struct rng *r)
{
    static struct asked q;
    check_plans(name, r, &q);
    judge_every_placing(name, &plant, r);
    tell(name, "the short search, placing by placing", judge_short_kept(&plant, r));
    judge_gateways(name, &plant, r);
}

/* By all leader lists the plan covers the most of every first k. */
static void check_tiny(const char *name, struct rng *r)
{
    static struct outcome o;
    static struct answer a;
    int most[MAX_BRUTE + 1];
    lent_plan(&plant, lent_side(r), &o);
    const char *fault = lent_answer(&plant, &o, &a);
    brute_most(&plant, most);
    for (int k = 0; k <= plant.n && fault == NULL; k++)
        if (answer_covered(&plant, a.leader, k) != most[k])
            fault = "some list covers more of a first k";
    if (fault == NULL && packing_difference(&plant, a.choke) != plant.n - most[plant.n])
        fault = "the difference is not the number that every list leaves";
    tell(name, "all lists", fault);
}

static void tiny(struct rng *r, int count)
{
    for (int i = 0; i < count * family_turn; i++) {
        const struct family *f = family_in_turn(i);
        family_make_own(f, &plant, r, i % 16 == 15 ? MAX_BRUTE : rng_between(r, 0, MAX_BRUTE - 1));
        check_tiny(f->name, r);
    }
}

static void some_of_each(struct rng *r, int count, int low, int high, void (*check)(const char *name, struct rng *r))
{
    for (int i = 0; i < count * family_turn; i++) {
        const struct family *f = family_in_turn(i);
        family_make_own(f, &plant, r, rng_between(r, low, high));
        check(f->name, r);
    }
}

/* Why somebody is alone in plants so small that all packings can be tried. */
static void few_places(struct rng *r, int count)
{
    for (int i = 0; i < count; i++) {
        family_make_own(&scarce, &plant, r, rng_between(r, 7, 10));
        judge_gateways(scarce.name, &plant, r);
    }
}

/* Some hundred gateways, and a search as deep as there can be. */
static void large(struct rng *r)
{
    const struct family *const some[] = {family_named("sparse"), family_named("stairs"), family_named("hung cycle"),
                                         family_named("tree and more"), &scarce};
    for (int i = 0; i < 5; i++) {
        family_make_own(some[i], &plant, r, rng_between(r, 200, 400));
        check_some(some[i]->name, r);
    }
    deep_make(&plant, deep_most(2), 2, PLACE_FREE);
    limits_for_all(&plant, r, 5);
    tell("the deepest search", "the short search", judge_short(&plant, r));
}

/* Hubs of every limit, which have too few places for all others; and as many links between both as there may be. */
static void make_largest(struct rng *r)
{
    family_largest(&plant, r, HUBS, 9, 3, 0);
    any_limits(&plant, r);
    for (int v = 0; v < HUBS; v++)
        plant_set_own(&plant, v, rng_below(r, 256), 2 + v % 15);
    for (int i = 0; plant.m < MAX_LINKS; i++)
        plant_link(&plant, i % HUBS, HUBS + i / HUBS);
}

/* The longest file there is. */
static void largest(struct rng *r)
{
    static const char name[] = "the longest file";
    static uint8_t file[MAX_FILE];
    static struct asked q;
    static struct why w;
    int left = 0;
    make_largest(r);
    size_t len = plant_write(&plant, file);
    tally(len == 36874, "the longest file has %zu bytes", len);
    if (!check_plans(name, r, &q))
        return;
    for (int v = 0; v < plant.n && left < EXPLAINED; v++) {
        if (q.plan.leader[v] != ALONE)
            continue;
        tell(name, "one alone", judge_left(&q, v, r, &w));
        left++;
    }
    tally(left == EXPLAINED, "the longest file: only %d alone", left);
}

int main(void)
{
    struct rng r = {46};
    tiny(&r, 40);
    few_places(&r, 1000);
    some_of_each(&r, 200, 0, 12, check_whole);
    some_of_each(&r, 12, 13, 40, check_whole);
    some_of_each(&r, 40, 13, 40, check_some);
    some_of_each(&r, 4, 41, 100, check_some);
    large(&r);
    largest(&r);
    tally(more >= 200 && fewer >= 100 && above >= 500,
          "only %ld plants with more covered than by T, %ld with fewer, and %ld groups above T", more, fewer, above);
    judge_tally_pairs(20000);
    judge_tally_why(&(struct why_met){.left = 5000, .wide = 500, .beyond = 300, .tried = 500, .tried_wide = 60});
    judge_tally_short(&(struct short_met){.left = 700, .leaders = 300, .more = 400, .fewer = 1});
    return tally_end();
}
