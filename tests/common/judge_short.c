#include "judge_short.h"

#include <string.h>

#include "groups.h"
#include "least.h"
#include "lent.h"
#include "packing.h"
#include "placing.h"
#include "reading.h"
#include "short_search.h"
#include "tally.h"

static struct short_met met;

void judge_short_expect(const struct plant *p, struct answer *a)
{
    int holder[MAX_GATEWAYS];
    a->moved = short_first(p, p->n, holder);
    reading_leaders(p->n, p->order, holder, a->leader);
    placing_choke(p, holder, a->choke);
}

static void count(const struct plant *p, const struct answer *a, const struct answer *plan)
{
    met.left += packing_alone(p, a->leader) > 0;
    met.leaders += memcmp(a->leader, plan->leader, (size_t)p->n * sizeof a->leader[0]) != 0;
    met.more += a->moved > plan->moved;
    met.fewer += a->moved < plan->moved;
}

/* What both calls must have in common. */
static const char *differs_from_plan(const struct plant *p, const struct answer *a, const struct answer *plan)
{
    count(p, a, plan);
    if (!groups_same_covered(p->n, a->leader, plan->leader))
        return "plan_groups leaves others alone";
    if (memcmp(a->choke, plan->choke, (size_t)p->n * sizeof a->choke[0]) != 0)
        return "the choke bytes are not those of plan_groups";
    return NULL;
}

static const char *fault_of(const struct plant *p, const struct answer *a)
{
    static struct answer expected;
    if (!packing_is(p, a->leader))
        return "the leader list is no packing";
    if (!groups_pairs_in_order(p, a->leader))
        return "a group of two is led by the one later in the order";
    if (packing_difference(p, a->choke) != packing_alone(p, a->leader))
        return "the choke difference is not the number alone";
    judge_short_expect(p, &expected);
    return answer_differs(a, &expected, p->n);
}

const char *judge_short(const struct plant *p, struct rng *r)
{
    static struct outcome o, of_plan, of_check;
    static struct answer a, plan;
    static uint8_t file[MAX_FILE];
    size_t len = plant_write(p, file), out_len = answer_size(p->n);
    lent_call_short(file, len, out_len, lent_side(r), &o);
    lent_call(file, len, out_len, AT_END, &of_plan);
    const char *fault = lent_answer(p, &o, &a);
    if (fault == NULL)
        fault = fault_of(p, &a);
    if (fault == NULL)
        fault = lent_answer(p, &of_plan, &plan);
    if (fault == NULL)
        fault = differs_from_plan(p, &a, &plan);
    if (fault != NULL)
        return fault;
    struct handed h = handed_of(file, len, p->n, o.out);
    lent_check(&h, lent_side(r), &of_check);
    return of_check.number == 0 ? of_check.fault : "check_groups refuses the lists";
}

/* Both searches place v, each beside those that it holds. */
static const char *place_both(const struct plant *p, int v, int *by_short, int *by_queue)
{
    int least = least_moved(p, by_short, v), moved = short_one(p, v, by_short).moved;
    placing_one(p, v, by_queue);
    if (!holders_same_held(p->n, by_short, by_queue))
        return "the short search holds others than the papers' placing";
    if (moved < least || (moved == 0) != (least == 0))
        return "the short search moves fewer than the flow's least";
    return NULL;
}

/* Of those placed just the ones without a holder are alone. */
static const char *differs_so_far(const struct plant *p, int k, const int *holder, struct rng *r)
{
    static struct outcome o;
    static struct answer a;
    lent_plan_after(p, k, lent_side(r), &o);
    const char *fault = lent_answer(p, &o, &a);
    for (int i = 0; i < k && fault == NULL; i++) {
        int v = p->order[i];
        if ((holder[v] == NOBODY) != (a.leader[v] == ALONE))
            fault = "plan_groups_after leaves others than the short search";
    }
    return fault;
}

const char *judge_short_kept(const struct plant *p, struct rng *r)
{
    int by_short[MAX_GATEWAYS], by_queue[MAX_GATEWAYS];
    const char *fault = NULL;
    for (int v = 0; v < p->n; v++)
        by_short[v] = by_queue[v] = NOBODY;
    for (int k = 0; k <= p->n && fault == NULL; k++) {
        if (k > 0)
            fault = place_both(p, p->order[k - 1], by_short, by_queue);
        if (fault == NULL)
            fault = differs_so_far(p, k, by_short, r);
    }
    return fault;
}

void judge_tally_short(const struct short_met *least)
{
    tally(met.left >= least->left, "in only %ld answers somebody is alone", met.left);
    tally(met.leaders >= least->leaders, "only %ld leader lists differ from those of plan_groups", met.leaders);
    tally(met.more >= least->more, "only %ld numbers moved are higher than those of plan_groups", met.more);
    tally(met.fewer >= least->fewer, "only %ld numbers moved are lower than those of plan_groups", met.fewer);
}
