/*
 * The largest plants of groups of two only: 1,024 gateways linked two by two. A gateway that is placed is held by
 * its partner, so that the answer is known beforehand.
 */
#include "lent.h"
#include "tally.h"

enum { ALL = MAX_GATEWAYS, HALF = ALL / 2, KINDS = 4 };

static struct plant plant;
static struct outcome outcome;
static int partner[ALL], place[ALL];

/* Lists of all gateways, for the order, and for the links: each two in it that follow each other are linked. */
static void ascending(int *list, struct rng *r)
{
    (void)r;
    for (int i = 0; i < ALL; i++)
        list[i] = i;
}

static void descending(int *list, struct rng *r)
{
    (void)r;
    for (int i = 0; i < ALL; i++)
        list[i] = ALL - 1 - i;
}

/* 0, 512, 1, 513, .. */
static void by_halves(int *list, struct rng *r)
{
    (void)r;
    for (int i = 0; i < ALL; i++)
        list[i] = i / 2 + i % 2 * HALF;
}

static void shuffled(int *list, struct rng *r)
{
    rng_shuffle(r, list, ALL);
}

static const struct {
    const char *name;
    void (*make)(int *list, struct rng *r);
} kinds[KINDS] = {
    {"ascending", ascending}, {"descending", descending}, {"by halves", by_halves}, {"shuffled", shuffled},
};

static void make(int links, int order, struct rng *r)
{
    int list[ALL];
    plant_open(&plant, ALL, 2 + order);
    kinds[links].make(list, r);
    for (int i = 0; i < ALL; i += 2) {
        int a = list[i], b = list[i + 1];
        plant_link(&plant, a, b);
        partner[a] = b;
        partner[b] = a;
    }
    kinds[order].make(plant.order, r);
    for (int i = 0; i < ALL; i++)
        place[plant.order[i]] = i;
}

/* The earlier one in the order leads, from its placing on. */
static int leader_of(int v, int k)
{
    int first = place[v] < place[partner[v]] ? v : partner[v];
    return place[first] < k ? first : ALONE;
}

/* The walk goes from each gateway not yet placed to its partner, which holds nobody. */
static int choke_of(int v, int k)
{
    return place[partner[v]] >= k;
}

static bool is_answer(int k)
{
    static struct answer a;
    if (outcome.number != 0 || outcome.fault != NULL)
        return false;
    answer_read(&a, ALL, outcome.out);
    for (int v = 0; v < ALL; v++)
        if (a.leader[v] != leader_of(v, k) || a.choke[v] != choke_of(v, k))
            return false;
    return a.moved == k; /* nobody else moves */
}

static void check(const char *links, const char *order, struct rng *r)
{
    static const int ks[] = {0, 1, 255, 256, 512, 700, 1023, 1024};
    lent_plan(&plant, lent_side(r), &outcome);
    tally(is_answer(ALL), "512 groups of two, links %s, order %s", links, order);
    for (size_t i = 0; i < sizeof ks / sizeof ks[0]; i++) {
        lent_plan_after(&plant, ks[i], lent_side(r), &outcome);
        tally(is_answer(ks[i]), "512 groups of two, links %s, order %s, after %d placings", links, order, ks[i]);
    }
}

int main(void)
{
    struct rng r = {15};
    for (int links = 0; links < KINDS; links++) {
        for (int order = 0; order < KINDS; order++) {
            make(links, order, &r);
            check(kinds[links].name, kinds[order].name, &r);
        }
    }
    return tally_end();
}
