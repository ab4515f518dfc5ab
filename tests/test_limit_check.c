/*
 * check_groups where each gateway has a limit of its own: groups are held to their leader's limit and not to T, and the
 * difference to the sum of the set's limits and not to T times its size. By hand, on small plants with all lists there are,
 * and on plants of many shapes with lists by other hands.
 */
#include "families.h"
#include "judge_all_lists.h"
#include "judge_check.h"
#include "judge_others.h"
#include "tally.h"

enum { MOST = 12, A = ALONE };

static struct plant plant;
static int leader[MAX_GATEWAYS], set[MAX_GATEWAYS];

/* Stars of five and of six gateways round 0, and two stars, the second round 6: each gateway's hub. */
#define FIVE 5, {0, 0, 0, 0, 0}
#define SIX 6, {0, 0, 0, 0, 0, 0}
#define FIVE_AND_SIX 11, {0, 0, 0, 0, 0, 6, 6, 6, 6, 6, 6}

/* Lists for such a plant, by its T and the own limits of gateways 0 and 6; 0 for T. */
static const struct row {
    const char *name;
    int n, hub[MOST];
    int limit, own_0, own_6;
    int leader[MOST], choke[MOST];
    int number;
} rows[] = {
    {"within its own limit and T", FIVE, 3, 2, 0, {0, 0, 0, A, A}, {1}, 0},
    {"one above its own limit, within T", FIVE, 3, 2, 0, {0, 0, 0, 0, A}, {1}, 31},
    {"two above its own limit, within T", FIVE, 4, 2, 0, {0, 0, 0, 0, 0}, {0}, 31},
    {"within its own limit, above T", FIVE, 3, 4, 0, {0, 0, 0, 0, 0}, {0}, 0},
    {"far within its own limit, above T", FIVE, 2, 16, 0, {0, 0, 0, 0, 0}, {0}, 0},
    {"above T, which is its limit", FIVE, 3, 0, 0, {0, 0, 0, 0, 0}, {0}, 31},
    {"as many as by T, where more could be", FIVE, 3, 4, 0, {0, 0, 0, 0, A}, {1}, 32},
    {"the same without a set", FIVE, 3, 4, 0, {0, 0, 0, 0, A}, {0}, 32},
    {"fewer than its own limit", FIVE, 3, 3, 0, {0, 0, 0, A, A}, {1}, 32},
    {"a leaf that leads the hub", FIVE, 3, 2, 0, {4, A, A, A, 4}, {1}, 32},
    {"the difference by its own limit, 5 - 4", SIX, 3, 4, 0, {0, 0, 0, 0, 0, A}, {1}, 0},
    {"the difference by T, 5 - 3", SIX, 3, 4, 0, {0, 0, 0, 0, A, A}, {1}, 32},
    {"the difference by a lower limit, 5 - 2", SIX, 3, 2, 0, {0, 0, 0, A, A, A}, {1}, 0},
    {"the difference by T where that is higher", SIX, 4, 2, 0, {0, 0, 0, A, A, A}, {1}, 0},
    {"two limits, 9 - 2 - 3", FIVE_AND_SIX, 4, 2, 3, {0, 0, 0, A, A, 6, 6, 6, 6, A, A}, {1, [6] = 1}, 0},
    {"the same, others led", FIVE_AND_SIX, 4, 2, 3, {0, A, A, 0, 0, A, 6, 6, A, 6, 6}, {1, [6] = 1}, 0},
    {"the same, one fewer", FIVE_AND_SIX, 4, 2, 3, {0, 0, 0, A, A, A, 6, 6, 6, A, A}, {1, [6] = 1}, 32},
    {"the same, one hub in the set", FIVE_AND_SIX, 4, 2, 3, {0, 0, 0, A, A, 6, 6, 6, 6, A, A}, {1}, 32},
    {"the same, the other in the set", FIVE_AND_SIX, 4, 2, 3, {0, 0, 0, A, A, 6, 6, 6, 6, A, A}, {[6] = 1}, 32},
    {"groups by T, 9 - 4 - 4", FIVE_AND_SIX, 4, 2, 3, {0, 0, 0, 0, 0, 6, 6, 6, 6, 6, A}, {1, [6] = 1}, 31},
    {"each by the other's limit", FIVE_AND_SIX, 4, 3, 2, {0, 0, 0, A, A, 6, 6, 6, 6, A, A}, {1, [6] = 1}, 31},
    {"each by its own", FIVE_AND_SIX, 4, 3, 2, {0, 0, 0, 0, A, 6, 6, A, 6, A, A}, {1, [6] = 1}, 0},
    {"limits above T, as many as by T", FIVE_AND_SIX, 2, 3, 2, {0, 0, 0, A, A, 6, 6, 6, A, A, A}, {1, [6] = 1}, 32},
};

static void by_hand(void)
{
    for (size_t i = 0; i < sizeof rows / sizeof rows[0]; i++) {
        const struct row *row = &rows[i];
        plant_open(&plant, row->n, row->limit);
        for (int v = 0; v < row->n; v++)
            plant_link(&plant, v, row->hub[v]);
        plant_set_own(&plant, 0, 60, row->own_0 == 0 ? row->limit : row->own_0);
        if (row->n > 6)
            plant_set_own(&plant, 6, 130, row->own_6);
        judge_number(row->number, &plant, row->leader, row->choke, row->name);
    }
}

/* A hub of every limit that has one leaf more, in plants of every T: each number of members, with the hub in the set. */
static void members(int t, int limit)
{
    plant_open(&plant, limit + 2, t);
    for (int v = 0; v < plant.n; v++) {
        plant_link(&plant, v, 1);
        leader[v] = v == 1 ? 1 : ALONE;
        set[v] = v == 1;
    }
    plant_set_own(&plant, 1, 0, limit);
    for (int v = 0, count = 0; v < plant.n; v++) {
        if (v == 1)
            continue;
        leader[v] = 1;
        count++;
        judge_number(count < limit ? 32 : count == limit ? 0 : 31, &plant, leader, set, "members of a hub");
    }
}

/*
 * A ring of pairs, and every fourth gateway of it in the set. Nobody is left without a link then, so that the difference is
 * below zero by the sum of the set's limits. Here that is a power of two, which is 0 where only the bits below it are looked
 * at.
 */
static void off_by_power(int sum, int limit, int t)
{
    int size = sum / limit, ring = 4 * size;
    plant_open(&plant, ring, t);
    for (int v = 0; v < ring; v++) {
        plant_link(&plant, v, (v + 1) % ring);
        leader[v] = v - v % 2;
        set[v] = v % 4 == 0;
        if (set[v])
            plant_set_own(&plant, v, 255, limit);
    }
    judge_number(32, &plant, leader, set, "a ring and a set");
    for (int v = 0; v < ring; v++)
        set[v] = 0;
    judge_number(0, &plant, leader, set, "a ring and no set");
}

static void small_plants(struct rng *r)
{
    static const int shapes[] = {7, 15, 31, 51, 63, 13}; /* the links 0-1, 0-2, 0-3, 1-2, 1-3, 2-3 */
    for (int i = 0; i < 6; i++) {
        for (int own = 2; own <= 3; own++) {
            family_graph(&plant, 4, 5 - own, shapes[i]);
            plant_set_own(&plant, 0, 0, own);
            judge_all_lists(&plant, "a graph of four", shapes[i], false);
        }
    }
    for (int i = 0; i < family_turn; i++) {
        family_make_own(family_in_turn(i), &plant, r, 5);
        judge_all_lists(&plant, family_in_turn(i)->name, i, true);
    }
    for (int own = 2; own <= 4; own++) {
        family_make(family_named("star"), &plant, r, 5, own == 3 ? 2 : 3);
        for (int v = 0; v < 5; v++)
            plant_set_own(&plant, v, 0, own);
        judge_all_lists(&plant, "a star of five", own, true);
    }
}

static void others(struct rng *r, int count, int low, int high)
{
    for (int i = 0; i < count * family_turn; i++) {
        family_make_own(family_in_turn(i), &plant, r, rng_between(r, low, high));
        judge_others(&plant, r);
    }
}

int main(void)
{
    struct rng r = {45};
    by_hand();
    for (int t = 2; t <= MAX_LIMIT; t++)
        for (int limit = 2; limit <= MAX_LIMIT; limit++)
            members(t, limit);
    for (int limit = 2; limit <= MAX_LIMIT; limit *= 2)
        for (int t = 2; t <= MAX_LIMIT; t += 7)
            off_by_power(256, limit, t);
    off_by_power(4096, 16, 2);
    small_plants(&r);
    others(&r, 30, 1, 12);
    others(&r, 10, 13, 40);
    others(&r, 1, 41, 100);
    judge_tally_others(&(struct others_met){.others = 5000, .fewer = 5000, .one_fewer = 3000});
    return tally_end();
}
