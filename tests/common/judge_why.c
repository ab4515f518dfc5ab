#include "judge_why.h"

#include "brute_cover.h"
#include "lent.h"
#include "packing.h"
#include "placing.h"
#include "tally.h"
#include "why_facts.h"

static struct why_met met;

const char *judge_ask(const struct plant *p, struct asked *q)
{
    static struct outcome o;
    lent_plan(p, AT_END, &o);
    if (o.fault != NULL)
        return o.fault;
    if (o.number != 0)
        return "a plant was refused";
    q->plant = p;
    answer_read(&q->plan, p->n, o.out);
    if (!packing_is(p, q->plan.leader))
        return "the leader list is no packing";
    placing_first(p, p->n, q->holder);
    return NULL;
}

static int count_links(const struct plant *p, int v)
{
    int count = 0;
    for (int i = 0; i < p->m; i++)
        count += p->ends[i][0] == v || p->ends[i][1] == v;
    return count;
}

/* All that the gateway is linked to is in the second set; if there are more, the walk went beyond. */
static void count(const struct plant *p, int gateway, const struct why *w)
{
    met.left++;
    met.wide += w->b >= 2;
    met.beyond += w->b > count_links(p, gateway);
}

static const char *fault_of(const struct asked *q, int gateway, const struct why *w)
{
    static struct why expected;
    const struct plant *p = q->plant;
    const char *fault = why_fault(p, q->plan.leader, gateway, w);
    if (fault != NULL)
        return fault;
    if (!why_is_smallest(p, q->plan.leader, gateway, w))
        return "there are smaller sets";
    if (!why_misses_one(p, w))
        return "by the flow a grouping covers the first set, or none covers all but one";
    if (w->b > 0 && brute_cover_can_try(p, w->first, w->a)) {
        met.tried++;
        met.tried_wide += w->b >= 2;
        if (brute_covers(p, w->first, w->a))
            return "a grouping covers the first set";
    }
    why_expect(p, q->holder, gateway, &expected);
    if (!why_same(w, &expected))
        return "the sets are others than by the walk";
    count(p, gateway, w);
    return NULL;
}

const char *judge_left(const struct asked *q, int gateway, struct rng *r, struct why *w)
{
    static struct outcome o;
    lent_why(q->plant, (uint32_t)gateway, lent_side(r), &o);
    if (o.fault != NULL)
        return o.fault;
    if (o.number != 0)
        return "a gateway that is alone was refused";
    if (!why_read(w, q->plant->n, o.out))
        return "a set has more than n gateways";
    return fault_of(q, gateway, w);
}

const char *judge_not_left(const struct asked *q, uint32_t number, struct rng *r)
{
    static struct outcome o;
    lent_why(q->plant, number, lent_side(r), &o);
    if (o.fault != NULL)
        return o.fault;
    return o.number == 30 ? NULL : "a number that is not of one alone was not refused with 30";
}

/* Notes in together who is in a second set; one that is left, or 0. */
static int ask_all(const char *name, const struct asked *q, bool *together, struct rng *r)
{
    static struct why w;
    const char *fault = NULL;
    int left = 0;
    for (int v = 0; v < q->plant->n && fault == NULL; v++) {
        bool alone = q->plan.leader[v] == ALONE;
        fault = alone ? judge_left(q, v, r, &w) : judge_not_left(q, (uint32_t)v, r);
        tally(fault == NULL, "%s, gateway %d: %s", name, v, fault);
        for (int i = 0; alone && fault == NULL && i < w.b; i++)
            together[w.second[i]] = true;
        left = alone ? v : left;
    }
    if (fault != NULL)
        plant_print(q->plant);
    return left;
}

/* n, and one of some others: also such as cut to 8, 16 or 24 bits or without a sign would be one that is left. */
static void ask_past(const char *name, const struct asked *q, int left, struct rng *r)
{
    const uint32_t n = (uint32_t)q->plant->n, v = (uint32_t)left;
    const uint32_t others[] = {n + 1, n - n % 256 + 256 + v % 256, 65535, 65536, 65536 + v, (1u << 24) + v, (1u << 31) + v,
                               UINT32_MAX};
    const uint32_t past[] = {n, others[rng_below(r, sizeof others / sizeof others[0])]};
    for (int i = 0; i < 2; i++) {
        const char *fault = judge_not_left(q, past[i], r);
        tally(fault == NULL, "%s, %u gateways, number %u: %s", name, (unsigned)n, (unsigned)past[i], fault);
    }
}

void judge_gateways(const char *name, const struct plant *p, struct rng *r)
{
    static struct asked q;
    bool together[MAX_GATEWAYS] = {false}, same = true;
    const char *fault = judge_ask(p, &q);
    tally(fault == NULL, "%s: %s", name, fault);
    if (fault != NULL)
        return;
    int left = ask_all(name, &q, together, r);
    for (int v = 0; v < p->n; v++)
        same = same && together[v] == (q.plan.choke[v] == 1);
    tally(same, "%s: the second sets together are not the choke set", name);
    ask_past(name, &q, left, r);
}

void judge_tally_why(const struct why_met *least)
{
    tally(met.left >= least->left, "only %ld gateways that are alone", met.left);
    tally(met.wide >= least->wide, "only %ld with two or more in the second set", met.wide);
    tally(met.beyond >= least->beyond, "only %ld whose walk goes beyond the first neighbours", met.beyond);
    tally(met.tried >= least->tried, "only %ld for which all packings were tried", met.tried);
    tally(met.tried_wide >= least->tried_wide, "only %ld of these with two or more in the second set", met.tried_wide);
}
