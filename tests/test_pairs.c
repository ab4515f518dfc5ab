/*
 * Who leads a group of two is all that rule 5 decides. Random plants at every number of placings: groups, covered
 * gateways, choke set and number moved are those that there are where the lower number leads, and where it is decided
 * otherwise.
 */
#include <string.h>

#include "families.h"
#include "groups.h"
#include "lent.h"
#include "packing.h"
#include "placing.h"
#include "reading.h"
#include "tally.h"

enum { WAYS = 3, LEAST = 5000 };

static const struct {
    enum pair_way way;
    const char *leads;
} ways[WAYS] = {
    {LOWER_LEADS, "the lower number"},
    {HIGHER_LEADS, "the higher number"},
    {AS_GROUPED, "the one named by rules 1 to 4"},
};

static struct plant plant;
static long met[WAYS]; /* groups of two in which the way gives another leader than rule 5 */

/* Calls plan_groups_after, or plan_groups where all are placed. NULL and the answer, or why there is none. */
static const char *call(int k, struct rng *r, struct answer *a)
{
    static struct outcome o;
    if (k == plant.n)
        lent_plan(&plant, lent_side(r), &o);
    else
        lent_plan_after(&plant, k, lent_side(r), &o);
    if (o.fault != NULL)
        return o.fault;
    if (o.number != 0)
        return "a plant was refused";
    answer_read(a, plant.n, o.out);
    return packing_is(&plant, a->leader) ? NULL : "the leader list is no packing";
}

static const char *fault_beside(const struct answer *a, const struct answer *other)
{
    if (!groups_same_covered(plant.n, a->leader, other->leader))
        return "other gateways are covered";
    if (!groups_same_sets(plant.n, a->leader, other->leader))
        return "the groups are others";
    if (!groups_same_leaders(plant.n, a->leader, other->leader))
        return "a group of more than two has another leader";
    if (memcmp(a->choke, other->choke, (size_t)plant.n * sizeof a->choke[0]) != 0)
        return "the choke set is another";
    if (a->moved != other->moved)
        return "the number moved is another";
    return NULL;
}

/* How many lead in the one list only. Where the lists differ in groups of two alone, so many of these differ. */
static int count_changed(const int *a, const int *b)
{
    int count = 0;
    for (int v = 0; v < plant.n; v++)
        count += a[v] == v && b[v] != v;
    return count;
}

static void report(const char *name, int k, const char *fault, const char *leads)
{
    tally(fault == NULL, "%s after %d placings, beside groups of two that %s leads: %s", name, k, leads,
          fault != NULL ? fault : "the same");
    if (fault != NULL)
        plant_print(&plant);
}

static void check(const char *name, int k, struct rng *r)
{
    static struct answer a, other;
    int holder[MAX_GATEWAYS], by_rule[MAX_GATEWAYS];
    const char *none = call(k, r, &a);
    other.moved = placing_first(&plant, k, holder);
    placing_choke(&plant, holder, other.choke);
    reading_leaders(plant.n, plant.order, holder, by_rule);
    for (int i = 0; i < WAYS; i++) {
        reading_leaders_by(ways[i].way, plant.n, plant.order, holder, other.leader);
        met[i] += count_changed(by_rule, other.leader);
        const char *fault = none != NULL ? none : fault_beside(&a, &other);
        report(name, k, fault, ways[i].leads);
    }
}

/* After every so many placings, and with all placed. */
static void some_of_each(struct rng *r, int count, int low, int high, int step)
{
    for (int i = 0; i < count * family_count; i++) {
        const struct family *f = &families[i % family_count];
        family_make(f, &plant, r, rng_between(r, low, high), 0);
        for (int k = 0; k < plant.n; k += step)
            check(f->name, k, r);
        check(f->name, plant.n, r);
    }
}

/* The plants have groups of two enough, of each kind. Each has another leader by exactly one of the first two ways. */
static void were_met(void)
{
    long left = met[0] + met[1] - met[2];
    for (int i = 0; i < WAYS; i++)
        tally(met[i] >= LEAST, "only %ld groups of two that are not led by %s", met[i], ways[i].leads);
    tally(left >= LEAST, "only %ld groups of two that rule 5 leaves as they are", left);
}

int main(void)
{
    struct rng r = {14};
    some_of_each(&r, 60, 2, 12, 1);
    some_of_each(&r, 10, 13, 60, 7);
    some_of_each(&r, 1, 200, 300, 90);
    were_met();
    return tally_end();
}
