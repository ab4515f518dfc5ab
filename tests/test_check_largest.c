/*
 * Lists for the largest plants, 1,024 gateways and up to 8,192 links: those of plan_groups, and those known beforehand for
 * stars and for hubs that all others are linked to, are accepted; with a little damage, or all in the set, they are not.
 */
#include "families.h"
#include "judge_check.h"
#include "lent.h"
#include "moves.h"
#include "packing.h"
#include "tally.h"

enum { ALL = MAX_GATEWAYS };

static struct plant plant;
static struct answer lists;

static void plan(const char *name)
{
    static struct outcome o;
    lent_plan(&plant, AT_END, &o);
    tally(o.number == 0 && o.fault == NULL, "%s: no plan", name);
    answer_read(&lists, plant.n, o.out);
}

static void expect(int number, const char *name)
{
    judge_number(number, &plant, lists.leader, lists.choke, name);
}

/* The same with one entry or byte changed, which is then changed back. */
static void expect_leader(int number, int v, int entry, const char *name)
{
    int kept = lists.leader[v];
    lists.leader[v] = entry;
    expect(number, name);
    lists.leader[v] = kept;
}

static void expect_choke(int number, int v, int byte, const char *name)
{
    int kept = lists.choke[v];
    lists.choke[v] = byte;
    expect(number, name);
    lists.choke[v] = kept;
}

/* At both ends of the lists, and at the last one's number as an entry. */
static void damages(const char *name)
{
    expect_leader(31, 0, ALL, name);
    expect_leader(31, ALL - 1, ALL, name);
    expect_leader(31, ALL - 1, ALONE - 1, name);
    expect_choke(32, 0, 2, name);
    expect_choke(32, ALL - 1, 255, name);
    expect_choke(32, 0, 1 - lists.choke[0], name);
    expect_choke(32, ALL - 1, 1 - lists.choke[ALL - 1], name);
}

/* Somebody less is covered. */
static void one_less(const char *name, struct rng *r)
{
    static struct answer kept;
    kept = lists;
    tally(moves_leave(&plant, r, lists.leader), "%s: nobody is covered", name);
    expect(32, name);
    lists = kept;
}

static void all_in_set(const char *name)
{
    for (int v = 0; v < ALL; v++)
        lists.choke[v] = 1;
    expect(32, name);
}

static void check(const char *name, struct rng *r)
{
    expect(0, name);
    one_less(name, r);
    damages(name);
    all_in_set(name);
}

/* As many links as there may be, all but the last by chance; of the last two gateways it is the only one. */
static void random_links(int limit, struct rng *r)
{
    plant_open(&plant, ALL - 2, limit);
    family_fill(&plant, r, MAX_LINKS - 1);
    plant.n = ALL;
    plant_link(&plant, ALL - 1, ALL - 2);
    rng_shuffle(r, plant.order, ALL);
    tally(plant.m == MAX_LINKS, "only %d links", plant.m);
    plan("random links");
    expect(0, "random links");
    one_less("random links", r);
    expect_leader(31, ALL - 1, ALL, "random links");
    all_in_set("random links");
}

static void open_lists(int limit)
{
    plant_open(&plant, ALL, limit);
    for (int v = 0; v < ALL; v++) {
        lists.leader[v] = ALONE;
        lists.choke[v] = 0;
    }
}

/* Every other gateway is linked to each of the hubs, the last ones. They lead T each and are the choke set. */
static void hubs(int count, int limit)
{
    open_lists(limit);
    for (int v = 0; v < ALL - count; v++)
        for (int u = ALL - count; u < ALL; u++)
            plant_link(&plant, v, u);
    for (int i = 0; i < count * limit; i++)
        lists.leader[i] = ALL - count + i / limit;
    for (int u = ALL - count; u < ALL; u++) {
        lists.leader[u] = u;
        lists.choke[u] = 1;
    }
    tally(packing_alone(&plant, lists.leader) == ALL - count - count * limit, "hubs: another number alone");
    expect(0, "hubs");
    expect_leader(31, 0, ALL - 1, "hubs, one leads T + 1");
    expect_choke(32, ALL - 1, 0, "hubs, one less in the set");
}

/* Stars of T members each, led by their second, as many as there is room for, and those that are over alone. */
static void stars(int limit, struct rng *r)
{
    open_lists(limit);
    for (int v = 0; v < ALL - ALL % (limit + 1); v++) {
        int u = v - v % (limit + 1) + 1;
        plant_link(&plant, u, v);
        lists.leader[v] = u;
    }
    check("stars", r);
}

/* Stars of one leaf more than T: each hub leads T, and all hubs are the choke set. With T = 2 there are 256 of them. */
static void full_stars(int limit, struct rng *r)
{
    open_lists(limit);
    for (int v = 0; v < ALL - ALL % (limit + 2); v++) {
        int u = v - v % (limit + 2) + 1;
        plant_link(&plant, v, u);
        lists.leader[v] = v % (limit + 2) == 0 ? ALONE : u;
        lists.choke[u] = 1;
    }
    check("full stars", r);
}

/* One star of all: the hub leads T, and the others are alone. */
static void one_star(int hub, int limit, struct rng *r)
{
    open_lists(limit);
    for (int v = 0; v < ALL; v++)
        plant_link(&plant, v, hub);
    for (int i = 0; i <= limit; i++)
        lists.leader[(hub + i) % ALL] = hub;
    lists.choke[hub] = 1;
    check("one star", r);
}

static void no_links(int limit)
{
    open_lists(limit);
    expect(0, "no links");
    damages("no links");
    expect_leader(31, 512, 512, "no links, one leads");
    all_in_set("no links");
}

int main(void)
{
    struct rng r = {29};
    random_links(2, &r);
    random_links(16, &r);
    hubs(8, 16);
    hubs(8, 2);
    for (int limit = 2; limit <= MAX_LIMIT; limit += 7) {
        stars(limit, &r);
        full_stars(limit, &r);
        one_star(0, limit, &r);
        one_star(ALL - 1, limit, &r);
        no_links(limit);
    }
    return tally_end();
}
