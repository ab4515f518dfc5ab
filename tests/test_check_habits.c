/*
 * Lists as old programs make them that fall into the traps of document 01: each trap on a plant where it goes wrong, which
 * is refused whatever the choke list, and on plants of many shapes, where it is accepted just if nothing went wrong.
 */
#include <string.h>

#include "families.h"
#include "flow.h"
#include "judge_check.h"
#include "packing.h"
#include "placing.h"
#include "reading.h"
#include "tally.h"

enum { MOST = 8, NUMBERS = 33 };

static struct plant plant;

static int count_held(const int *holder, int u)
{
    int count = 0;
    for (int v = 0; v < plant.n; v++)
        count += holder[v] == u;
    return count;
}

/* Each takes the first neighbour that holds fewer than T, and nobody is ever moved. */
static void take_first_free(int *holder)
{
    for (int v = 0; v < plant.n; v++)
        holder[v] = NOBODY;
    for (int k = 0; k < plant.n; k++) {
        int v = plant.order[k];
        for (int i = 0; i < plant.m && holder[v] == NOBODY; i++) {
            const int *ends = plant.ends[i];
            int u = ends[0] == v ? ends[1] : ends[0];
            if ((ends[0] == v || ends[1] == v) && count_held(holder, u) < plant.limit)
                holder[v] = u;
        }
    }
}

static void first_free(struct answer *a)
{
    int holder[MAX_GATEWAYS];
    take_first_free(holder);
    reading_leaders(plant.n, plant.order, holder, a->leader);
    placing_choke(&plant, holder, a->choke);
}

/* Document 01's own holders and choke set. */
static void place_all(int *holder, struct answer *a)
{
    placing_first(&plant, plant.n, holder);
    placing_choke(&plant, holder, a->choke);
}

/* Each one's entry is its holder; one without holder leads if it holds any. */
static void holder_as_leader(struct answer *a)
{
    int holder[MAX_GATEWAYS];
    place_all(holder, a);
    for (int v = 0; v < plant.n; v++)
        a->leader[v] = holder[v] != NOBODY ? holder[v] : count_held(holder, v) > 0 ? v : ALONE;
}

/* Whoever holds any leads; the others' entry is their holder. */
static void all_holders_lead(struct answer *a)
{
    int holder[MAX_GATEWAYS];
    place_all(holder, a);
    for (int v = 0; v < plant.n; v++)
        a->leader[v] = count_held(holder, v) > 0 ? v : holder[v] != NOBODY ? holder[v] : ALONE;
}

static void last_dropped(struct answer *a)
{
    int holder[MAX_GATEWAYS];
    place_all(holder, a);
    reading_leaders_as(LAST_DROPPED, plant.n, plant.order, holder, a->leader);
}

static void first_left_out(struct answer *a)
{
    int holder[MAX_GATEWAYS];
    place_all(holder, a);
    reading_leaders_as(FIRST_LEFT_OUT, plant.n, plant.order, holder, a->leader);
}

/* The choke set's walk from the first gateway that is left, and from no other. */
static void walk_from_first(struct answer *a)
{
    int holder[MAX_GATEWAYS], queued[MAX_GATEWAYS], v = 0;
    place_all(holder, a);
    reading_leaders(plant.n, plant.order, holder, a->leader);
    while (v < plant.n && holder[v] != NOBODY)
        v++;
    if (v < plant.n)
        placing_walk(&plant, holder, v, queued, a->choke);
}

/* The neighbours of those that are left, without going on from there. */
static void neighbours_only(struct answer *a)
{
    int holder[MAX_GATEWAYS];
    place_all(holder, a);
    reading_leaders(plant.n, plant.order, holder, a->leader);
    memset(a->choke, 0, sizeof a->choke);
    for (int i = 0; i < plant.m; i++)
        for (int side = 0; side < 2; side++)
            if (holder[plant.ends[i][side]] == NOBODY)
                a->choke[plant.ends[i][1 - side]] = 1;
}

/* A trap, and a plant where it goes wrong, with the leader list and the number that come of it. */
static const struct trap {
    const char *name;
    void (*make)(struct answer *a);
    int n, limit, m;
    int ends[MOST][2], order[MOST], leader[MOST];
    int number;
    bool in_choke; /* it is in the choke list, and the leader list is as good as ours */
    int refused;   /* so many of the random plants at least are refused for it */
} traps[] = {
    {"first free neighbour", first_free, 5, 2, 4, {{0, 2}, {0, 3}, {0, 4}, {1, 2}}, {2, 3, 4, 0, 1}, {3, 2, 2, 3, ALONE},
     32, false, 500},
    {"holders as leaders", holder_as_leader, 3, 2, 2, {{0, 1}, {1, 2}}, {0, 1, 2}, {1, 0, 1}, 31, false, 2000},
    {"all holders lead", all_holders_lead, 4, 2, 3, {{0, 1}, {1, 2}, {2, 3}}, {0, 1, 2, 3}, {0, 1, 2, 2}, 31, false, 2000},
    {"odd cycle's last dropped", last_dropped, 5, 2, 5, {{0, 1}, {1, 2}, {2, 0}, {1, 3}, {3, 4}}, {3, 4, 1, 2, 0},
     {1, 1, ALONE, 3, 3}, 32, false, 200},
    {"odd run's first left out", first_left_out, 5, 2, 5, {{0, 1}, {1, 2}, {2, 3}, {3, 0}, {0, 4}}, {0, 1, 2, 3, 4},
     {0, ALONE, 2, 2, 0}, 32, false, 1000},
    {"choke set from the first left", walk_from_first, 8, 2, 6, {{0, 1}, {0, 2}, {0, 3}, {7, 4}, {7, 5}, {7, 6}},
     {0, 1, 2, 3, 4, 5, 6, 7}, {0, 0, 0, ALONE, 7, 7, ALONE, 7}, 32, true, 250},
    {"choke set of neighbours only", neighbours_only, 7, 2, 6, {{0, 2}, {0, 3}, {1, 4}, {1, 5}, {1, 3}, {0, 6}},
     {2, 3, 4, 5, 6, 0, 1}, {0, 1, 0, 0, 1, 1, ALONE}, 32, true, 200},
};

enum { TRAPS = sizeof traps / sizeof traps[0] };

static void with_every_choke_list(const char *name, const int *leader, int number)
{
    int choke[MOST];
    for (int bits = 0; bits < 1 << plant.n; bits++) {
        for (int v = 0; v < plant.n; v++)
            choke[v] = bits >> v & 1;
        judge_number(number, &plant, leader, choke, name);
    }
}

/* Where the leader list is wrong, it is refused with every choke list there is. */
static void on_its_plant(const struct trap *t)
{
    static struct answer a;
    plant_fill(&plant, t->n, t->limit, t->m, t->ends, t->order);
    t->make(&a);
    tally(memcmp(a.leader, t->leader, (size_t)t->n * sizeof a.leader[0]) == 0, "%s: another leader list", t->name);
    judge_number(t->number, &plant, a.leader, a.choke, t->name);
    if (!t->in_choke)
        with_every_choke_list(t->name, a.leader, t->number);
}

/* With its own choke set the number is the rules'; with the right one it is accepted just where it covers the most. */
static void check(const struct trap *t, struct rng *r, int which, int *seen)
{
    static struct answer a, right;
    int holder[MAX_GATEWAYS];
    t->make(&a);
    place_all(holder, &right);
    bool best = packing_alone(&plant, a.leader) == plant.n - flow_most(&plant, plant.n);
    int number = !packing_is(&plant, a.leader) ? 31 : best ? 0 : 32;
    judge_number(number, &plant, a.leader, right.choke, t->name);
    seen[judge_lists(&plant, a.leader, a.choke, r, t->name, which)]++;
}

/* All shapes, and more of those where somebody is left or holders go round in a cycle. */
static void on_random_plants(const struct trap *t, struct rng *r)
{
    const struct family *const more[] = {&scarce, family_named("bare cycle"), family_named("hung cycle")};
    int seen[NUMBERS] = {0};
    for (int i = 0; i < 1500; i++) {
        family_make(&families[i % family_count], &plant, r, rng_between(r, 3, i % 8 == 7 ? 60 : 12), 0);
        check(t, r, i, seen);
        family_make(more[i % 3], &plant, r, rng_between(r, 7, 30), 2);
        check(t, r, i, seen);
    }
    tally(seen[31] + seen[32] >= t->refused && seen[0] >= 100, "%s: only %d of 31, %d of 32, %d accepted", t->name, seen[31],
          seen[32], seen[0]);
}

/* A ring of five, four of them in pairs: each may be the one that is dropped. */
static void ring_in_pairs(void)
{
    static const int order[5] = {0, 1, 2, 3, 4};
    int leader[5];
    plant_fill(&plant, 5, 2, 5, (const int[][2]){{0, 1}, {1, 2}, {2, 3}, {3, 4}, {4, 0}}, order);
    for (int dropped = 0; dropped < 5; dropped++) {
        for (int i = 0; i < 5; i++)
            leader[(dropped + i) % 5] = i == 0 ? ALONE : (dropped + (i - 1) / 2 * 2 + 1) % 5;
        with_every_choke_list("a ring in pairs", leader, 32);
    }
}

int main(void)
{
    struct rng r = {27};
    ring_in_pairs();
    for (int i = 0; i < TRAPS; i++) {
        on_its_plant(&traps[i]);
        on_random_plants(&traps[i], &r);
    }
    return tally_end();
}
