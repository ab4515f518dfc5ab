/*
 * The number that each placing moves, which is the difference of two answers, and that it is the least: against the
 * holders before and after it, against the flow and, in small plants, against all holders there are.
 */
#include <string.h>

#include "brute_least.h"
#include "families.h"
#include "least.h"
#include "lent.h"
#include "orders.h"
#include "placing.h"
#include "tally.h"

enum { MANY = 4, SOME = 6, MOST_LINKS = 6, REFUSED = -1 };

/* The placings that were checked: how many moved so many; the last counts those that moved more too. */
static struct {
    long all[MANY + 1], small[MANY + 1]; /* small: held to all holders there are */
    long ties;                           /* small that moved 2 or more, and could have moved as few in another way */
    int most;
} met;

static struct plant plant;

/* The number moved after k placings, or with all placed by plan_groups; REFUSED where the call gives none. */
static long sum_after(int k, bool all, struct rng *r)
{
    static struct outcome o;
    static struct answer a;
    if (all)
        lent_plan(&plant, lent_side(r), &o);
    else
        lent_plan_after(&plant, k, lent_side(r), &o);
    if (o.number != 0 || o.fault != NULL)
        return REFUSED;
    answer_read(&a, plant.n, o.out);
    return a.moved;
}

static void count(long *by_moved, int moved)
{
    by_moved[moved < MANY ? moved : MANY]++;
    if (moved > met.most)
        met.most = moved;
}

/* NULL, or why so many can't be what the placing of v moves, before which the holders were these. */
static const char *fault_of(int v, const int *before, int changed, long moved)
{
    count(met.all, changed);
    if (moved != changed)
        return "the holders change at another number";
    if (moved != least_moved(&plant, before, v))
        return "by the flow another number is the least";
    if (!brute_can_try(&plant))
        return NULL;
    struct fewest f = brute_least(&plant, before, v);
    count(met.small, f.moved);
    met.ties += f.moved > 1 && f.ways > 1;
    return moved == f.moved ? NULL : "among all holders another number is the least";
}

/* The k-th placing, which takes the holders one further, and the sums before and after it. */
static void check_placing(const char *name, int k, int *holder, long sum_before, long sum)
{
    int before[MAX_GATEWAYS], v = plant.order[k - 1];
    memcpy(before, holder, sizeof before);
    int changed = placing_one(&plant, v, holder);
    const char *fault = fault_of(v, before, changed, sum - sum_before);
    if (fault == NULL && (holder[v] == NOBODY) != (changed == 0))
        fault = "it is not 0 just where the gateway is left";
    tally(fault == NULL, "%s, placing %d: from %ld to %ld moved; %s", name, k, sum_before, sum, fault ? fault : "the least");
    if (fault != NULL)
        plant_print(&plant);
}

static void check_every(const char *name, struct rng *r)
{
    int holder[MAX_GATEWAYS] = {0};
    long sum = sum_after(0, false, r);
    tally(sum == 0, "%s, nothing placed: %ld moved", name, sum);
    placing_first(&plant, 0, holder);
    for (int k = 1; k <= plant.n; k++) {
        long next = sum_after(k, false, r);
        check_placing(name, k, holder, sum, next);
        sum = next;
    }
    tally(sum == sum_after(plant.n, true, r), "%s, all placed: %ld moved, and by plan_groups another number", name, sum);
}

/* Where every placing would take long: those that move the most, and a few by chance. */
static void check_some(const char *name, struct rng *r)
{
    int moved[MAX_GATEWAYS], holder[MAX_GATEWAYS] = {0};
    long all = 0;
    placing_each(&plant, moved);
    for (int i = 0; i < plant.n; i++)
        all += moved[i];
    tally(sum_after(plant.n, true, r) == all, "%s, all placed: not %ld moved", name, all);
    for (int times = 0; times < SOME; times++) {
        int at = rng_below(r, plant.n);
        for (int i = 0; i < plant.n && times < SOME / 2; i++)
            at = moved[i] > moved[at] ? i : at;
        moved[at] = 0;
        long sum = placing_first(&plant, at, holder);
        tally(sum_after(at, false, r) == sum, "%s, %d placed: not %ld moved", name, at, sum);
        check_placing(name, at + 1, holder, sum, sum_after(at + 1, false, r));
    }
}

/* The plant with its links in every order of arrival and its gateways in every order. */
static void every_order(struct rng *r)
{
    static struct plant as_made;
    int links[MOST_LINKS];
    as_made = plant;
    for (int i = 0; i < plant.m; i++)
        links[i] = i;
    do {
        for (int i = 0; i < plant.m; i++)
            memcpy(plant.ends[i], as_made.ends[links[i]], sizeof plant.ends[i]);
        memcpy(plant.order, as_made.order, sizeof plant.order);
        do {
            check_every("one of all plants", r);
        } while (order_next(plant.order, plant.n));
    } while (order_next(links, plant.m));
}

/* Every plant of n gateways, up to 4; which end of a link is the first does not matter. */
static void every_plant(int n, int limit, struct rng *r)
{
    for (int bits = 0; bits < 1 << (n * (n - 1) / 2); bits++) {
        family_graph(&plant, n, limit, bits);
        every_order(r);
    }
}

static void some_of_each(struct rng *r, int count, int low, int high, int limit)
{
    for (int i = 0; i < count * family_count; i++) {
        const struct family *f = &families[i % family_count];
        family_make(f, &plant, r, rng_between(r, low, high), limit);
        check_every(f->name, r);
    }
}

/*
 * About as many leaves as the hubs have places for. Those at two hubs are placed first; those at one hub only, which
 * come last, then make them move.
 */
static void make_tight(struct rng *r, int n, int limit)
{
    int hubs = 1 + n / (limit + 1), front = 0, back = n;
    bool on_line = rng_below(r, 2) == 0;
    plant_open(&plant, n, limit);
    for (int v = hubs; v < n; v++) {
        int u = rng_below(r, hubs), other = on_line ? (u + 1) % hubs : rng_below(r, hubs);
        bool at_one = rng_below(r, 3) == 0;
        plant_link(&plant, v, u);
        plant_link(&plant, v, at_one ? u : other);
        plant.order[at_one ? --back : front++] = v;
    }
    for (int u = 0; u < hubs; u++)
        plant.order[front++] = u;
}

static void some_tight(struct rng *r, int count, int low, int high)
{
    for (int i = 0; i < count; i++) {
        make_tight(r, rng_between(r, low, high), 2 + rng_below(r, 2));
        check_every("tight", r);
    }
}

static void large(struct rng *r)
{
    for (int f = 0; f < family_count; f++) {
        family_make(&families[f], &plant, r, rng_between(r, 150, 250), 2 + f % 2);
        check_some(families[f].name, r);
    }
    family_make(family_named("stairs"), &plant, r, MAX_GATEWAYS, 2);
    check_some("stairs", r);
    make_tight(r, MAX_GATEWAYS, 2);
    check_some("tight", r);
}

/* Placings of each kind were met, so that the tests say something. */
static void were_met(void)
{
    static const long all[] = {10000, 100000, 5000, 1000, 400}, small[] = {5000, 100000, 1000, 100};
    for (int i = 0; i <= MANY; i++)
        tally(met.all[i] >= all[i], "only %ld placings that move %d%s", met.all[i], i, i == MANY ? " or more" : "");
    for (int i = 0; i < MANY; i++)
        tally(met.small[i] >= small[i], "only %ld placings in small plants that move %d", met.small[i], i);
    tally(met.ties >= 1000, "only %ld placings that move 2 or more and could have moved as few in another way", met.ties);
    tally(met.most >= 100, "none moves more than %d", met.most);
}

int main(void)
{
    struct rng r = {16};
    for (int n = 0; n <= 4; n++)
        every_plant(n, 2, &r);
    some_of_each(&r, 400, 3, 7, 0);
    some_of_each(&r, 80, 8, 20, 0);
    some_of_each(&r, 10, 21, 60, 2);
    some_tight(&r, 6000, 5, 10);
    some_tight(&r, 2500, 11, 30);
    some_tight(&r, 80, 31, 100);
    large(&r);
    were_met();
    return tally_end();
}
