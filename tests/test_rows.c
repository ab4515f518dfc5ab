/*
 * What a full gateway holds, at every number that a row of it can have, from two to sixteen: each of them is found where
 * it alone can move, the lowest number moves where two can, and where none can the one more is alone.
 */
#include "flow.h"
#include "judge.h"
#include "lent.h"
#include "tally.h"

enum { FREE = 2 }; /* the most gateways with a place free that a plant has */

static struct plant plant;
static struct outcome outcome;
static struct answer answer;

/*
 * The hub is full: it holds 0 to limit - 1, placed in the order given, and then comes limit, which is linked to the hub
 * alone. The hub is limit + 1; from limit + 2 on, gateways with a place free, each linked to one that the hub holds.
 */
static void make_full(int limit, bool descending, int free, const int *movable)
{
    int one_more = limit, hub = limit + 1, n = limit + 2 + free;
    plant_open(&plant, n, limit);
    for (int v = 0; v <= one_more; v++)
        plant_link(&plant, hub, v);
    for (int f = 0; f < free; f++)
        plant_link(&plant, hub + 1 + f, movable[f]);
    for (int v = 0; v < limit; v++)
        plant.order[v] = descending ? limit - 1 - v : v;
}

/* The call right after the one more is placed, which moves so many; each one before it moved itself alone. */
static bool after_one_more(int limit, int moves)
{
    lent_plan_after(&plant, limit + 1, AT_END, &outcome);
    if (outcome.number != 0 || outcome.fault != NULL)
        return false;
    answer_read(&answer, plant.n, outcome.out);
    return answer.moved == limit + moves;
}

/* All that is known of any plant, at every number of placings. */
static void judge(const char *name, int limit, int a, int b, struct rng *r)
{
    static int most[MAX_GATEWAYS + 1];
    const char *fault = NULL;
    flow_every(&plant, most);
    for (int k = 0; k <= plant.n && fault == NULL; k++)
        fault = judge_after(&plant, most, k, r, &answer);
    tally(fault == NULL, "%s, limit %d, %d and %d: %s", name, limit, a, b, fault);
}

/* The one that can move stands at any place of the row: it moves, so that the one more and its new holder are covered. */
static void one_moves(int limit, bool descending, struct rng *r)
{
    for (int v = 0; v < limit; v++) {
        make_full(limit, descending, 1, &v);
        bool found = after_one_more(limit, 2) && answer.leader[limit] == limit + 1 && answer.leader[v] != limit + 1
            && answer.leader[v] != ALONE && answer.leader[v] == answer.leader[limit + 2];
        tally(found, "limit %d: %d does not move to the gateway with a place free", limit, v);
        judge("one can move", limit, v, v, r);
    }
}

/* Two can: the lower number moves, in whatever order they were placed and whichever gateway is free for it. */
static void lower_moves(int limit, bool descending, struct rng *r)
{
    for (int high = 1; high < limit; high++) {
        for (int low = 0; low < high; low++) {
            const int movable[FREE] = {high, low};
            make_full(limit, descending, FREE, movable);
            bool lower = after_one_more(limit, 2) && answer.leader[limit + 2] == ALONE && answer.leader[limit + 3] != ALONE
                && answer.leader[low] == answer.leader[limit + 3] && answer.leader[high] == limit + 1;
            tally(lower, "limit %d: not %d but %d moves", limit, low, high);
            judge("two can move", limit, low, high, r);
        }
    }
}

/* None can: the one more is alone for good, and the hub is the choke set. */
static void none_moves(int limit, struct rng *r)
{
    make_full(limit, false, 0, NULL);
    bool left = after_one_more(limit, 0) && answer.leader[limit] == ALONE;
    lent_plan(&plant, AT_END, &outcome);
    left = left && outcome.number == 0 && outcome.fault == NULL;
    if (left)
        answer_read(&answer, plant.n, outcome.out);
    left = left && answer.moved == limit + 1; /* the hub too finds a place at once */
    for (int v = 0; left && v < plant.n; v++)
        left = answer.choke[v] == (v == limit + 1) && (answer.leader[v] == ALONE) == (v == limit);
    tally(left, "limit %d: the one more is not alone, or the choke set is not the hub, or somebody moved", limit);
    judge("none can move", limit, limit, limit, r);
}

int main(void)
{
    struct rng r = {14};
    for (int limit = 2; limit <= MAX_LIMIT; limit++) {
        none_moves(limit, &r);
        for (int descending = 0; descending < 2; descending++) {
            one_moves(limit, descending, &r);
            lower_moves(limit, descending, &r);
        }
    }
    return tally_end();
}
