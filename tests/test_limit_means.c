/*
 * The tests' own means for a limit for each gateway: the limits of bytes, packings, differences and the sets of why_alone by
 * hand, and both searches beside the flow and all holders there are.
 */
#include <string.h>

#include "answer.h"
#include "brute_least.h"
#include "families.h"
#include "flow.h"
#include "least.h"
#include "own_limit.h"
#include "packing.h"
#include "placing.h"
#include "short_search.h"
#include "tally.h"
#include "why_facts.h"

enum { MOST = 8, MANY = 3 };

static struct plant plant;

static void limits_by_hand(void)
{
    static const struct {
        int t, kind, limit_byte, limit;
    } rows[] = {
        {2, 0, 0, 2}, {7, 0, 0, 7}, {16, 0, 0, 16}, {7, 1, 0, 2}, {7, 31, 0, 2}, {7, 32, 0, 4}, {7, 127, 0, 4},
        {7, 128, 0, 8}, {7, 191, 0, 8}, {7, 192, 0, 16}, {7, 255, 0, 16}, {7, 0, 2, 2}, {7, 0, 16, 16}, {2, 255, 3, 3},
        {16, 1, 5, 5},
    };
    for (size_t i = 0; i < sizeof rows / sizeof rows[0]; i++) {
        int limit = own_limit(rows[i].t, rows[i].kind, rows[i].limit_byte);
        tally(limit == rows[i].limit, "T %d, kind %d, limit byte %d: %d", rows[i].t, rows[i].kind, rows[i].limit_byte,
              limit);
    }
    for (int byte = 0; byte < 256; byte++)
        tally(own_limit_refused(byte) == !(byte == 0 || (byte >= 2 && byte <= 16)), "limit byte %d", byte);
}

/* Hub 0 has the leaves 2 to 5, and hub 1 has 5, 6 and 7. T is 4, hub 0's limit is 3 and hub 1's is 2. */
static void make_two_hubs(void)
{
    static const int ends[7][2] = {{0, 2}, {0, 3}, {0, 4}, {0, 5}, {1, 5}, {1, 6}, {1, 7}};
    static const int order[MOST] = {0, 1, 2, 3, 4, 6, 7, 5};
    plant_fill(&plant, MOST, 4, 7, ends, order);
    plant_set_own(&plant, 0, 200, 3);
    plant_set_own(&plant, 1, 31, 0);
}

static void packings_by_hand(void)
{
    enum { A = ALONE };
    static const struct {
        int leader[MOST];
        bool good;
        const char *why;
    } lists[] = {
        {{0, 1, 0, 0, 0, A, 1, 1}, true, "both hubs lead as many as they can"},
        {{0, 1, 0, 0, 0, 0, 1, 1}, false, "one above hub 0's limit, and within T"},
        {{0, 1, 0, 0, 0, 1, 1, 1}, false, "one above hub 1's limit, and within T"},
    };
    make_two_hubs();
    for (int i = 0; i < 3; i++)
        tally(packing_is(&plant, lists[i].leader) == lists[i].good, "the definition on a list: %s", lists[i].why);
    plant_set_own(&plant, 0, 0, 4);
    tally(packing_is(&plant, lists[1].leader), "a limit of 4, and four members");
    plant.limit = 2;
    tally(packing_is(&plant, lists[1].leader), "the same, and T is 2");
    plant_forget_own(&plant);
    tally(!packing_is(&plant, lists[0].leader), "T is 2, and three members");
}

static void differences_by_hand(void)
{
    static const int both[MOST] = {1, 1}, first[MOST] = {1}, second[MOST] = {0, 1}, leaf[MOST] = {0, 0, 0, 0, 0, 1};
    make_two_hubs();
    tally(packing_difference(&plant, both) == 1, "the difference of both hubs, 6 - 3 - 2");
    tally(packing_difference(&plant, first) == 0, "the difference of hub 0, 3 - 3");
    tally(packing_difference(&plant, second) == 0, "the difference of hub 1, 2 - 2");
    tally(packing_difference(&plant, leaf) == -4, "the difference of a leaf that goes by T, 0 - 4");
}

/* 5 is alone: both hubs are full with the five before it. */
static void sets_by_hand(void)
{
    static const int leader[MOST] = {0, 1, 0, 0, 0, ALONE, 1, 1}, holder[MOST] = {2, 6, 0, 0, 0, NOBODY, 1, 1};
    static const struct why good = {6, 2, {2, 3, 4, 5, 6, 7}, {0, 1}};
    static struct why w;
    make_two_hubs();
    why_expect(&plant, holder, 5, &w);
    tally(why_same(&w, &good), "the walk from 5");
    tally(why_fault(&plant, leader, 5, &good) == NULL, "the sets of 5: %s", why_fault(&plant, leader, 5, &good));
    tally(why_is_smallest(&plant, leader, 5, &good) && why_misses_one(&plant, &good), "the sets of 5 say why");
    plant_set_own(&plant, 1, 0, 3);
    const char *fault = why_fault(&plant, leader, 5, &good);
    tally(fault != NULL && strstr(fault, "sum of") != NULL, "hub 1 could take 5: %s", fault);
    tally(!why_misses_one(&plant, &good), "by the flow hub 1 could take 5");
}

/* The placings that were checked, by how many they moved; the last counts those that moved more too. */
static long met[MANY + 1];

/* Places v by both searches, each beside those that it holds. NULL, or what is not so. */
static const char *place(int v, int *by_queue, int *by_short)
{
    int least = least_moved(&plant, by_queue, v), of_short = least_moved(&plant, by_short, v);
    struct fewest f = brute_can_try(&plant) ? brute_least(&plant, by_queue, v) : (struct fewest){least, 1};
    int moved = placing_one(&plant, v, by_queue);
    met[moved < MANY ? moved : MANY]++;
    if (moved != least || moved != f.moved)
        return "the papers' placing moves another number than the least";
    if (short_one(&plant, v, by_short).moved < of_short)
        return "the short search moves fewer than the least";
    return holders_same_held(plant.n, by_queue, by_short) ? NULL : "the searches hold others";
}

static bool within_limits(const int *holder)
{
    for (int u = 0; u < plant.n; u++)
        if (holders_count(plant.n, holder, u) > plant.limits[u])
            return false;
    return true;
}

/* After every number of placings as many are held as any packing can cover. */
static const char *place_all(void)
{
    int by_queue[MAX_GATEWAYS], by_short[MAX_GATEWAYS], held = 0;
    for (int v = 0; v < plant.n; v++)
        by_queue[v] = by_short[v] = NOBODY;
    for (int k = 1; k <= plant.n; k++) {
        int v = plant.order[k - 1];
        const char *fault = place(v, by_queue, by_short);
        if (fault != NULL)
            return fault;
        held += by_queue[v] != NOBODY;
        if (held != flow_most(&plant, k))
            return "the flow covers another number";
        if (!within_limits(by_queue) || !within_limits(by_short))
            return "one holds more than its limit";
    }
    return NULL;
}

static void placings(struct rng *r, int count, int low, int high)
{
    for (int i = 0; i < count * family_turn; i++) {
        const struct family *f = family_in_turn(i);
        family_make_own(f, &plant, r, rng_between(r, low, high));
        const char *fault = place_all();
        tally(fault == NULL, "%s %d: %s", f->name, i, fault);
        if (fault != NULL)
            plant_print(&plant);
    }
}

int main(void)
{
    static const long least[] = {2000, 20000, 500, 150};
    struct rng r = {41};
    limits_by_hand();
    packings_by_hand();
    differences_by_hand();
    sets_by_hand();
    placings(&r, 300, 3, 9);
    placings(&r, 100, 10, 30);
    placings(&r, 12, 31, 90);
    for (int i = 0; i <= MANY; i++)
        tally(met[i] >= least[i], "only %ld placings that move %d%s", met[i], i, i == MANY ? " or more" : "");
    return tally_end();
}
