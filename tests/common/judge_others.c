#include "judge_others.h"

#include <string.h>

#include "answer.h"
#include "flow.h"
#include "judge_check.h"
#include "lent.h"
#include "moves.h"
#include "packing.h"
#include "reading.h"
#include "tally.h"

static const struct plant *plant;
static struct answer ours;
static int most;
static struct others_met met;

int judge_others_begin(const struct plant *p, struct rng *r)
{
    static struct outcome o;
    plant = p;
    lent_plan(p, lent_side(r), &o);
    tally(o.number == 0 && o.fault == NULL, "a plan of %d gateways", p->n);
    answer_read(&ours, p->n, o.out);
    most = flow_most(p, p->n);
    return most;
}

void judge_other(const char *name, const int *leader)
{
    int missed = most - (plant->n - packing_alone(plant, leader));
    judge_number(missed == 0 ? 0 : 32, plant, leader, ours.choke, name);
    met.others += missed == 0 && memcmp(leader, ours.leader, (size_t)plant->n * sizeof leader[0]) != 0;
    met.fewer += missed > 0;
    met.one_fewer += missed == 1;
}

/* A list, others by changes that lose nobody, and one that loses somebody. */
static void check_near(const char *name, int *leader, struct rng *r)
{
    judge_other(name, leader);
    for (int i = 0; i < 3; i++) {
        moves_make(plant, r, plant->n, leader);
        judge_other(name, leader);
    }
    if (moves_leave(plant, r, leader))
        judge_other(name, leader);
}

/* From the flow's holders, whoever leads a pair. */
static void by_flow(struct rng *r)
{
    int holder[MAX_GATEWAYS], leader[MAX_GATEWAYS];
    tally(flow_holders(plant, holder) == most, "the flow gives another most");
    for (enum pair_way way = EARLIER_LEADS; way <= AS_GROUPED; way++) {
        reading_leaders_by(way, plant->n, plant->order, holder, leader);
        tally(plant->n - packing_alone(plant, leader) == most, "the flow's holders cover another number");
        check_near("from the flow", leader, r);
    }
}

/* From nobody in a group: few changes leave many alone, and more may lead to the most. */
static void by_moves(struct rng *r)
{
    int leader[MAX_GATEWAYS];
    for (int times = 1; times <= 256; times *= 4) {
        for (int v = 0; v < plant->n; v++)
            leader[v] = ALONE;
        moves_make(plant, r, times * plant->n / 4, leader);
        check_near("by chance", leader, r);
    }
}

void judge_others(const struct plant *p, struct rng *r)
{
    judge_others_begin(p, r);
    by_flow(r);
    by_moves(r);
}

void judge_tally_others(const struct others_met *least)
{
    tally(met.others >= least->others, "only %ld lists that are not ours and cover the most", met.others);
    tally(met.fewer >= least->fewer && met.one_fewer >= least->one_fewer, "only %ld lists of fewer, and %ld of one fewer",
          met.fewer, met.one_fewer);
}
