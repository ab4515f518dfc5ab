/*
 * The tests' own means for why_alone: what two sets must be, on sets made by hand, each fact failing in turn; the trying of
 * all packings for a set, beside that for every first k; and the walk from one gateway, by hand and beside the choke set's.
 */
#include <string.h>

#include "answer.h"
#include "brute.h"
#include "brute_cover.h"
#include "families.h"
#include "placing.h"
#include "tally.h"
#include "why_facts.h"

enum { MOST = 8 };

static struct plant plant;

/* Hub 0 has the leaves 2, 3, 4 and 7 and holds 2 and 3; hub 1 has 5, 6 and 7 and holds 5 and 6. T is 2. */
static const int ends[7][2] = {{0, 2}, {0, 3}, {0, 4}, {1, 5}, {1, 6}, {1, 7}, {0, 7}};
static const int order[MOST] = {0, 1, 2, 3, 4, 5, 6, 7};
static const int leader[MOST] = {0, 1, 0, 0, ALONE, 1, 1, ALONE};
static const int holder[MOST] = {2, 5, 0, 0, NOBODY, 1, 1, NOBODY};

/* A gateway, two sets, and a word of the fault that they have. */
static const struct sets {
    int gateway;
    struct why why;
    const char *fault;
} sets[] = {
    {4, {3, 1, {2, 3, 4}, {0}}, NULL},
    {7, {5, 2, {2, 3, 5, 6, 7}, {0, 1}}, NULL},
    {4, {3, 1, {3, 2, 4}, {0}}, "first set is not ascending"},
    {4, {4, 1, {2, 3, 3, 4}, {0}}, "first set is not ascending"},
    {4, {3, 1, {3, 4, 8}, {0}}, "first set is not ascending"},
    {7, {5, 2, {2, 3, 5, 6, 7}, {1, 0}}, "second set is not ascending"},
    {7, {5, 3, {2, 3, 5, 6, 7}, {0, 1, 8}}, "second set is not ascending"},
    {4, {0, 0, {0}, {0}}, "not in the first set"},
    {4, {2, 1, {2, 3}, {0}}, "not in the first set"},
    {7, {5, 2, {2, 3, 4, 5, 7}, {0, 1}}, "alone, or later"}, /* 4 is alone */
    {4, {3, 2, {2, 4, 5}, {0, 1}}, "alone, or later"},       /* 5 comes after 4 */
    {7, {3, 3, {0, 2, 7}, {0, 1, 2}}, "are linked"},
    {7, {3, 1, {2, 3, 7}, {0}}, "not exactly"},
    {4, {3, 0, {2, 3, 4}, {0}}, "not exactly"},
    {4, {3, 1, {2, 3, 4}, {1}}, "not exactly"},
    {4, {3, 2, {2, 3, 4}, {0, 1}}, "not exactly"},
    {4, {2, 1, {2, 4}, {0}}, "sum of"},
    {7, {4, 2, {2, 5, 6, 7}, {0, 1}}, "sum of"},
};

static void facts_by_hand(void)
{
    plant_fill(&plant, MOST, 2, 7, ends, order);
    for (size_t i = 0; i < sizeof sets / sizeof sets[0]; i++) {
        const struct sets *s = &sets[i];
        const char *fault = why_fault(&plant, leader, s->gateway, &s->why);
        bool same = s->fault == NULL ? fault == NULL : fault != NULL && strstr(fault, s->fault) != NULL;
        tally(same, "the facts on sets %zu: %s", i, fault ? fault : "none fails");
    }
}

/* 5 and 6 come before 4 here: with them and their hub the sets of 4 have no fault, and are not the smallest. */
static void smallest_by_hand(void)
{
    static const int other[MOST] = {0, 1, 2, 3, 5, 6, 4, 7};
    static const struct why larger = {5, 2, {2, 3, 4, 5, 6}, {0, 1}};
    plant_fill(&plant, MOST, 2, 7, ends, other);
    for (int i = 0; i < 2; i++) {
        const struct sets *s = &sets[i];
        bool fine = why_fault(&plant, leader, s->gateway, &s->why) == NULL;
        tally(fine && why_is_smallest(&plant, leader, s->gateway, &s->why), "the smallest sets of %d", s->gateway);
    }
    bool fine = why_fault(&plant, leader, 4, &larger) == NULL;
    tally(fine && !why_is_smallest(&plant, leader, 4, &larger), "sets that are not the smallest");
    tally(why_misses_one(&plant, &larger) && !brute_covers(&plant, larger.first, larger.a), "and say the same");
}

/* Exactly one of the set is missed by the packings that cover most of it. */
static void misses_by_hand(void)
{
    static const struct {
        int count, set[5], missed;
    } rows[] = {
        {0, {0}, 0}, {1, {4}, 0}, {2, {2, 3}, 0}, {3, {2, 3, 4}, 1}, {3, {2, 3, 7}, 0}, {4, {2, 3, 4, 7}, 1},
        {4, {2, 5, 6, 7}, 0}, {5, {2, 3, 5, 6, 7}, 1}, {5, {2, 3, 4, 6, 7}, 1}, {5, {0, 1, 2, 3, 5}, 0},
    };
    plant_fill(&plant, MOST, 2, 7, ends, order);
    for (size_t i = 0; i < sizeof rows / sizeof rows[0]; i++) {
        struct why w = {.a = rows[i].count};
        memcpy(w.first, rows[i].set, sizeof rows[i].set);
        tally(why_misses_one(&plant, &w) == (rows[i].missed == 1), "the flow on set %zu", i);
        tally(brute_covers(&plant, w.first, w.a) == (rows[i].missed == 0), "all packings on set %zu", i);
    }
    plant.m = 4; /* without the links of 6 and 7 two are missed */
    struct why w = {.a = 3, .first = {5, 6, 7}};
    tally(!why_misses_one(&plant, &w) && !brute_covers(&plant, w.first, w.a), "two are missed");
}

/* The front of the order is a set as good as any: all of it is covered where the most is its size. */
static void check_covers(const char *name)
{
    int most[MAX_BRUTE + 1];
    brute_most(&plant, most);
    for (int k = 0; k <= plant.n; k++)
        tally(brute_covers(&plant, plant.order, k) == (most[k] == k), "all packings on %s, the first %d", name, k);
}

static void covers(struct rng *r)
{
    for (int n = 0; n <= 4; n++) {
        for (int bits = 0; bits < 1 << (n * (n - 1) / 2); bits++) {
            family_graph(&plant, n, 2, bits);
            rng_shuffle(r, plant.order, n);
            check_covers("a graph");
        }
    }
    for (int i = 0; i < 15 * family_count; i++) {
        family_make(&families[i % family_count], &plant, r, i % 8 == 7 ? MAX_BRUTE : 5, 0);
        check_covers(families[i % family_count].name);
    }
}

static void walks_by_hand(void)
{
    static struct why w;
    plant_fill(&plant, MOST, 2, 7, ends, order);
    for (int i = 0; i < 2; i++) {
        why_expect(&plant, holder, sets[i].gateway, &w);
        tally(why_same(&w, &sets[i].why), "the walk from %d", sets[i].gateway);
    }
    plant_link(&plant, 3, 1); /* by 3 the walk from 4 goes on to the other hub */
    why_expect(&plant, holder, 4, &w);
    tally(why_same(&w, &(struct why){5, 2, {2, 3, 4, 5, 6}, {0, 1}}), "the walk from 4, by 3");
}

/* Whether the walks from each that nobody holds see together what the walk from all of them sees. */
static bool same_together(const int *held_by)
{
    int queued[MAX_GATEWAYS], seen[MAX_GATEWAYS], choke[MAX_GATEWAYS], together[MAX_GATEWAYS] = {0};
    placing_choke(&plant, held_by, choke);
    for (int v = 0; v < plant.n; v++) {
        if (held_by[v] != NOBODY)
            continue;
        placing_walk(&plant, held_by, v, queued, seen);
        for (int u = 0; u < plant.n; u++)
            together[u] = together[u] || seen[u];
    }
    return memcmp(together, choke, (size_t)plant.n * sizeof choke[0]) == 0;
}

static void walks_together(struct rng *r)
{
    int held_by[MAX_GATEWAYS];
    for (int i = 0; i < 50 * family_count; i++) {
        const struct family *f = &families[i % family_count];
        family_make(f, &plant, r, rng_between(r, 1, 30), 0);
        placing_first(&plant, rng_between(r, 0, plant.n), held_by);
        tally(same_together(held_by), "the walks of %s %d together", f->name, i);
    }
}

int main(void)
{
    struct rng r = {22};
    facts_by_hand();
    smallest_by_hand();
    misses_by_hand();
    covers(&r);
    walks_by_hand();
    walks_together(&r);
    return tally_end();
}
