/*
 * Lists of our own, on plants of many shapes: check_groups accepts what plan_groups writes, whatever the file's order of
 * gateways and links, and what the papers' rules give, whoever leads a group of two. What plan_groups_after writes before
 * the last placing is a packing, and accepted just where the rules accept it.
 */
#include "families.h"
#include "judge_check.h"
#include "lent.h"
#include "placing.h"
#include "reading.h"
#include "tally.h"

static struct plant plant;
static long so_far[2]; /* lists before the last placing: accepted, refused */

/* The answer after k placings; false where there is none. */
static bool plan(int k, struct rng *r, struct answer *a)
{
    static struct outcome o;
    lent_plan_after(&plant, k, lent_side(r), &o);
    answer_read(a, plant.n, o.out);
    return o.number == 0 && o.fault == NULL;
}

/* Document 01's holders, read with each way of leading a pair. */
static void check_rules(const char *name)
{
    int holder[MAX_GATEWAYS], leader[MAX_GATEWAYS], choke[MAX_GATEWAYS];
    placing_first(&plant, plant.n, holder);
    placing_choke(&plant, holder, choke);
    for (enum pair_way way = EARLIER_LEADS; way <= AS_GROUPED; way++) {
        reading_leaders_by(way, plant.n, plant.order, holder, leader);
        judge_number(0, &plant, leader, choke, name);
    }
}

static void check_so_far(const char *name, struct rng *r)
{
    static struct answer a;
    int k = rng_below(r, plant.n);
    bool ok = plan(k, r, &a);
    int number = judge_lists(&plant, a.leader, a.choke, r, name, k);
    tally(ok && (number == 0 || number == 32), "%s after %d placings: the rules give %d", name, k, number);
    so_far[number == 32]++;
}

/* The same plant in another order, the links from the last to the first, every other one turned round. */
static void turn_file(struct plant *p, struct rng *r)
{
    rng_shuffle(r, p->order, p->n);
    for (int i = 0; i < p->m; i++)
        for (int side = 0; side < 2; side++)
            p->ends[i][side] = plant.ends[plant.m - 1 - i][i % 2 ^ side];
}

static void check(const char *name, struct rng *r)
{
    static struct answer a;
    static struct plant turned;
    tally(plan(plant.n, r, &a), "a plan of %s", name);
    judge_number(0, &plant, a.leader, a.choke, name);
    turned = plant;
    turn_file(&turned, r);
    judge_number(0, &turned, a.leader, a.choke, name);
    check_rules(name);
    if (plant.n > 0)
        check_so_far(name, r);
}

static void some_of_each(struct rng *r, int count, int low, int high)
{
    for (int i = 0; i < count * family_count; i++) {
        const struct family *f = &families[i % family_count];
        family_make(f, &plant, r, rng_between(r, low, high), 0);
        check(f->name, r);
    }
}

static void check_small(struct rng *r)
{
    check("a graph", r);
}

int main(void)
{
    struct rng r = {24};
    family_small(&plant, check_small, &r);
    some_of_each(&r, 10, 0, 2);
    some_of_each(&r, 200, 3, 12);
    some_of_each(&r, 50, 13, 40);
    some_of_each(&r, 8, 41, 120);
    tally(so_far[0] >= 500 && so_far[1] >= 5000, "before the last placing only %ld accepted and %ld refused", so_far[0],
          so_far[1]);
    return tally_end();
}
