/* The tests' own means: the flows against all packings or holders there are, and the definitions on lists made by hand. */
#include <string.h>

#include "brute.h"
#include "brute_least.h"
#include "families.h"
#include "flow.h"
#include "groups.h"
#include "least.h"
#include "packing.h"
#include "placing.h"
#include "reading.h"
#include "tally.h"

static struct plant plant;

static void check(const char *what, int number)
{
    bool ok = brute_agrees(&plant);
    tally(ok, "the flow on %s %d", what, number);
    if (!ok)
        plant_print(&plant);
}

static void every_graph(int n, int limit, struct rng *r)
{
    int graphs = 1 << (n * (n - 1) / 2);
    for (int bits = 0; bits < graphs; bits++) {
        family_graph(&plant, n, limit, bits);
        rng_shuffle(r, plant.order, n);
        check("graph", bits);
    }
}

static void some_of_six(struct rng *r)
{
    for (int i = 0; i < 240; i++) {
        family_make(&families[i % family_count], &plant, r, MAX_BRUTE, 0);
        check("plant of six", i);
    }
}

/* A limit for each gateway: often more are covered than with T for all, or fewer. */
static void some_with_own_limits(struct rng *r)
{
    int more = 0, fewer = 0;
    for (int i = 0; i < 200 * family_count; i++) {
        family_make_own(&families[i % family_count], &plant, r, i % 16 == 9 ? MAX_BRUTE : rng_between(r, 3, 5));
        check("plant with own limits", i);
        int most = flow_most(&plant, plant.n);
        plant_forget_own(&plant);
        more += most > flow_most(&plant, plant.n);
        fewer += most < flow_most(&plant, plant.n);
    }
    tally(more >= 100 && fewer >= 20, "only %d plants of which more is covered by own limits, and %d of which less", more,
          fewer);
}

/* A star of four round gateway 0, and a link 1-2; T is 3. */
static void packings_by_hand(void)
{
    static const struct {
        int leader[5];
        bool good;
        const char *why;
    } lists[] = {
        {{ALONE, ALONE, ALONE, ALONE, ALONE}, true, "all alone"},
        {{0, 0, ALONE, ALONE, ALONE}, true, "a pair"},
        {{0, 0, 0, 0, ALONE}, true, "three members"},
        {{3, 1, 1, 3, ALONE}, true, "two pairs"},
        {{0, 0, 0, 0, 0}, false, "more than T members"},
        {{0, ALONE, ALONE, ALONE, ALONE}, false, "a leader of nobody"},
        {{ALONE, ALONE, ALONE, 3, 3}, false, "a member that is not linked"},
        {{ALONE, 0, ALONE, ALONE, ALONE}, false, "a member of one alone"},
        {{0, 0, 1, ALONE, ALONE}, false, "a member of a member"},
        {{0, 0, ALONE, ALONE, 5}, false, "a number past n"},
    };
    plant_open(&plant, 5, 3);
    for (int v = 1; v < 5; v++)
        plant_link(&plant, 0, v);
    plant_link(&plant, 1, 2);
    for (size_t i = 0; i < sizeof lists / sizeof lists[0]; i++)
        tally(packing_is(&plant, lists[i].leader) == lists[i].good, "the definition on a list: %s", lists[i].why);
}

static void differences_by_hand(void)
{
    static const int none[5] = {0}, hub[5] = {1}, leaf[5] = {0, 1};
    plant_open(&plant, 5, 3);
    for (int v = 1; v < 5; v++)
        plant_link(&plant, 0, v);
    tally(packing_difference(&plant, none) == 0, "the difference of no set");
    tally(packing_difference(&plant, hub) == 1, "the difference of the hub, 4 - 3");
    tally(packing_difference(&plant, leaf) == -3, "the difference of a leaf, 0 - 3");
    plant.m = 0;
    tally(packing_difference(&plant, none) == 5, "the difference without links");
}

/* Six gateways; 0 to 5 stand at the places 1, 3, 5, 0, 4, 2 of the order. */
static void pairs_by_hand(void)
{
    static const int order[6] = {3, 0, 5, 1, 4, 2};
    static const struct {
        int leader[6];
        bool good;
        long lower, higher;
        const char *why;
    } lists[] = {
        {{ALONE, ALONE, ALONE, ALONE, ALONE, ALONE}, true, 0, 0, "all alone"},
        {{0, 0, ALONE, ALONE, ALONE, ALONE}, true, 1, 0, "the lower number first"},
        {{1, 1, ALONE, ALONE, ALONE, ALONE}, false, 1, 0, "the higher number leads and is later"},
        {{3, ALONE, ALONE, 3, ALONE, ALONE}, true, 0, 1, "the higher number first"},
        {{0, ALONE, ALONE, 0, ALONE, ALONE}, false, 0, 1, "the lower number leads and is later"},
        {{2, 2, 2, ALONE, ALONE, ALONE}, true, 0, 0, "three led by the last of them"},
        {{0, 0, 5, 3, 3, 5}, true, 2, 1, "three groups of two"},
        {{0, 0, 2, 3, 3, 2}, false, 2, 1, "one of three led by the later"},
        {{1, 1, 1, ALONE, 4, 4}, false, 0, 1, "a three, and two led by the later"},
    };
    plant_open(&plant, 6, 2);
    memcpy(plant.order, order, sizeof order);
    for (size_t i = 0; i < sizeof lists / sizeof lists[0]; i++) {
        struct pairs_met met = {0, 0};
        groups_count_pairs(&plant, lists[i].leader, &met);
        tally(met.lower == lists[i].lower && met.higher == lists[i].higher, "groups of two counted: %s", lists[i].why);
        tally(groups_pairs_in_order(&plant, lists[i].leader) == lists[i].good, "groups of two in order: %s", lists[i].why);
    }
}

static void groups_by_hand(void)
{
    static const struct {
        int a[5], b[5];
        bool covered, sets, leaders;
    } lists[] = {
        {{0, 0, 2, 2, ALONE}, {1, 1, 3, 3, ALONE}, true, true, true},
        {{0, 0, ALONE, 3, 3}, {0, 0, 2, 2, ALONE}, false, false, true},
        {{0, 0, 2, 2, ALONE}, {0, 1, 0, 1, ALONE}, true, false, true},
        {{0, 0, 0, 3, 3}, {0, 0, 0, 4, 4}, true, true, true},
        {{0, 0, 0, 3, 3}, {1, 1, 1, 3, 3}, true, true, false},
        {{0, 0, 0, 3, 3}, {0, 0, 2, 2, 2}, true, false, false},
        {{0, 0, ALONE, ALONE, ALONE}, {ALONE, ALONE, ALONE, ALONE, ALONE}, false, false, true},
    };
    for (size_t i = 0; i < sizeof lists / sizeof lists[0]; i++) {
        const int *a = lists[i].a, *b = lists[i].b;
        tally(groups_same_covered(5, a, b) == lists[i].covered, "two lists (%zu): who is covered", i);
        tally(groups_same_sets(5, a, b) == lists[i].sets, "two lists (%zu): the groups", i);
        tally(groups_same_leaders(5, a, b) == lists[i].leaders, "two lists (%zu): the leaders of three", i);
    }
}

/* 1 holds 0, 5 holds 2, 7 holds 6 and 8; 3 and 4 hold each other. */
static void readings_by_hand(void)
{
    static const int holder[9] = {1, NOBODY, 5, 4, 3, NOBODY, 7, NOBODY, 7}, order[9] = {8, 3, 0, 5, 1, 6, 4, 2, 7};
    static const struct {
        enum pair_way way;
        int leader[9];
    } readings[] = {
        {EARLIER_LEADS, {0, 0, 5, 3, 3, 5, 7, 7, 7}},
        {LOWER_LEADS, {0, 0, 2, 3, 3, 2, 7, 7, 7}},
        {HIGHER_LEADS, {1, 1, 5, 4, 4, 5, 7, 7, 7}},
        {AS_GROUPED, {1, 1, 5, 3, 3, 5, 7, 7, 7}},
    };
    int leader[9];
    reading_leaders(9, order, holder, leader);
    tally(memcmp(leader, readings[0].leader, sizeof leader) == 0, "holders read by the rules");
    for (size_t i = 0; i < sizeof readings / sizeof readings[0]; i++) {
        reading_leaders_by(readings[i].way, 9, order, holder, leader);
        tally(memcmp(leader, readings[i].leader, sizeof leader) == 0, "holders read, way %d", (int)readings[i].way);
    }
}

/* Holders, one gateway more, the fewest that move so that it is held too, and in how many ways. T is 2. */
static void least_by_hand(void)
{
    enum { F = NOBODY };
    static const struct {
        const char *what;
        int n, m, ends[6][2], holder[6], v, moved, ways;
    } rows[] = {
        {"no neighbour", 2, 0, {{0}}, {F, F}, 0, 0, 0},
        {"a place free", 2, 1, {{0, 1}}, {F, F}, 0, 1, 1},
        {"two places free", 3, 2, {{0, 1}, {0, 2}}, {F, F, F}, 0, 1, 2},
        {"nobody can move", 4, 3, {{0, 1}, {0, 2}, {0, 3}}, {F, 0, 0, F}, 3, 0, 0},
        {"one can move", 5, 4, {{0, 1}, {0, 2}, {0, 3}, {1, 4}}, {F, 0, 0, F, F}, 3, 2, 1},
        {"either of two can move", 5, 5, {{0, 1}, {0, 2}, {0, 3}, {1, 4}, {2, 4}}, {F, 0, 0, F, F}, 3, 2, 2},
        {"nobody need move", 6, 5, {{0, 1}, {0, 2}, {0, 3}, {1, 4}, {3, 5}}, {F, 0, 0, F, F, F}, 3, 1, 1},
        {"two move, the second to any of three", 6, 6, {{0, 1}, {0, 2}, {0, 3}, {1, 4}, {4, 5}, {4, 0}}, {4, 0, 0, F, F, 4},
            3, 3, 3},
    };
    for (size_t i = 0; i < sizeof rows / sizeof rows[0]; i++) {
        plant_fill(&plant, rows[i].n, 2, rows[i].m, rows[i].ends, (const int[]){0, 1, 2, 3, 4, 5});
        struct fewest f = brute_least(&plant, rows[i].holder, rows[i].v);
        tally(f.moved == rows[i].moved && f.ways == rows[i].ways, "the least by all holders, %s", rows[i].what);
        tally(least_moved(&plant, rows[i].holder, rows[i].v) == rows[i].moved, "the least by the flow, %s", rows[i].what);
    }
}

/* Any holders along links and within limits, also such as no placings lead to; one at least is without. */
static void any_holders(struct rng *r, int *holder, int *without)
{
    int holds[MAX_BRUTE] = {0};
    *without = rng_below(r, plant.n);
    for (int w = 0; w < plant.n; w++)
        holder[w] = NOBODY;
    for (int times = 10 * plant.n; times > 0; times--) {
        int w = rng_below(r, plant.n), u = rng_below(r, plant.n);
        if (w == *without || holder[w] != NOBODY || holds[u] == plant.limits[u] || !plant_has_link(&plant, u, w))
            continue;
        holder[w] = u;
        holds[u]++;
    }
}

/* With T for all, or with a limit for each gateway. */
static void least_of_any(bool own, struct rng *r)
{
    int holder[MAX_BRUTE], v, seen[MAX_BRUTE + 1] = {0};
    for (int i = 0; i < 20000; i++) {
        const struct family *f = &families[i % family_count];
        if (own)
            family_make_own(f, &plant, r, rng_between(r, 5, MAX_BRUTE));
        else
            family_make(f, &plant, r, rng_between(r, 5, MAX_BRUTE), 2 + i % 7 / 6);
        any_holders(r, holder, &v);
        int moved = brute_least(&plant, holder, v).moved;
        tally(least_moved(&plant, holder, v) == moved, "the least by the flow and by all holders, %d", i);
        seen[moved]++;
    }
    for (int moved = 0; moved <= (own ? 2 : 3); moved++)
        tally(seen[moved] >= 5, "only %d holders where %d is the least", seen[moved], moved);
}

int main(void)
{
    struct rng r = {1};
    packings_by_hand();
    differences_by_hand();
    pairs_by_hand();
    groups_by_hand();
    readings_by_hand();
    least_by_hand();
    for (int n = 0; n <= 4; n++)
        for (int limit = 2; limit <= 4; limit++)
            every_graph(n, limit, &r);
    every_graph(5, 2, &r);
    every_graph(5, 3, &r);
    some_of_six(&r);
    least_of_any(false, &r);
    some_with_own_limits(&r);
    least_of_any(true, &r);
    return tally_end();
}
