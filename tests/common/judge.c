#include "judge.h"

#include <string.h>

#include "flow.h"
#include "groups.h"
#include "lent.h"
#include "packing.h"
#include "placing.h"
#include "reading.h"
#include "tally.h"

static struct pairs_met met; /* in all answers that are packings */

/* The holders after k placings, and the answer that goes with them. */
static void by_rules(const struct plant *p, int k, int *holder, struct answer *a)
{
    a->moved = placing_first(p, k, holder);
    reading_leaders(p->n, p->order, holder, a->leader);
    placing_choke(p, holder, a->choke);
}

void judge_expect(const struct plant *p, int k, struct answer *a)
{
    int holder[MAX_GATEWAYS];
    by_rules(p, k, holder, a);
}

/* Demand 3 over those placed: of every first j of the order, as many as any packing can cover. */
static bool covers_most(const struct plant *p, const int *most, int k, const int *leader)
{
    for (int j = 0; j <= k; j++)
        if (answer_covered(p, leader, j) != most[j])
            return false;
    return true;
}

/* The same gateway by gateway: one that adds nothing to the most that can be covered is left, and alone. */
static bool left_are_alone(const struct plant *p, const int *most, int k, const int *leader)
{
    for (int i = 0; i < k; i++) {
        bool left = most[i + 1] == most[i];
        if ((leader[p->order[i]] == ALONE) != left)
            return false;
    }
    return true;
}

static bool held_are_covered(const struct plant *p, const int *holder, const int *leader)
{
    for (int v = 0; v < p->n; v++)
        if (holder[v] != NOBODY && leader[v] == ALONE)
            return false;
    return true;
}

static bool is_set(const struct plant *p, const int *choke)
{
    for (int v = 0; v < p->n; v++)
        if (choke[v] != 0 && choke[v] != 1)
            return false;
    return true;
}

static const char *fault_of(const struct plant *p, const int *most, int k, const struct answer *a)
{
    static struct answer expected;
    int holder[MAX_GATEWAYS];
    if (!packing_is(p, a->leader))
        return "the leader list is no packing";
    groups_count_pairs(p, a->leader, &met);
    if (!groups_pairs_in_order(p, a->leader))
        return "a group of two is led by the one later in the order";
    if (!covers_most(p, most, k, a->leader))
        return "over some first j the flow covers another number";
    if (!left_are_alone(p, most, k, a->leader))
        return "the flow leaves another gateway";
    by_rules(p, k, holder, &expected);
    if (!held_are_covered(p, holder, a->leader))
        return "a gateway that is held is alone";
    if (!is_set(p, a->choke))
        return "a choke byte is neither 0 nor 1";
    if (k == p->n && packing_difference(p, a->choke) != packing_alone(p, a->leader))
        return "the choke difference is not the number alone";
    return answer_differs(a, &expected, p->n);
}

const char *judge_plant(const struct plant *p, struct rng *r)
{
    static struct outcome o;
    static struct answer a;
    static int most[MAX_GATEWAYS + 1];
    lent_plan(p, lent_side(r), &o);
    const char *fault = lent_answer(p, &o, &a);
    if (fault != NULL)
        return fault;
    flow_every(p, most);
    return fault_of(p, most, p->n, &a);
}

static bool is_whole_answer(const struct plant *p, const struct outcome *o)
{
    static struct outcome whole;
    lent_plan(p, AT_END, &whole);
    return whole.number == 0 && memcmp(whole.out, o->out, answer_size(p->n)) == 0;
}

const char *judge_after(const struct plant *p, const int *most, int k, struct rng *r, struct answer *a)
{
    static struct outcome o;
    lent_plan_after(p, k, lent_side(r), &o);
    const char *fault = lent_answer(p, &o, a);
    if (fault == NULL)
        fault = fault_of(p, most, k, a);
    if (fault == NULL && k == p->n && !is_whole_answer(p, &o))
        fault = "with all placed the bytes are not those of plan_groups";
    return fault;
}

void judge_tally_pairs(long least)
{
    tally(met.lower >= least && met.higher >= least,
          "only %ld groups of two in which the lower number is the earlier one, and %ld in which the higher is", met.lower,
          met.higher);
}
