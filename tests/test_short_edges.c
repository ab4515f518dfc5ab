/*
 * The short search on small plants, with answers worked out beforehand: the cases of document 01, "At the edges"; plants on
 * which it differs from plan_groups in holders, groups or the number moved; plants on which each step of it matters; and the
 * plant of docs/SHORT-SEARCH.md.
 */
#include "holders.h"
#include "judge_short.h"
#include "lent.h"
#include "short_search.h"
#include "tally.h"

enum { MOST = 12 };

static const struct edge {
    const char *name;
    int n, limit, m;
    int ends[MOST][2];
    int order[MOST];
    int holder[MOST], leader[MOST], choke[MOST];
    int moved[MOST];    /* by each placing */
    int least;          /* the sum of plan_groups */
    bool other_leaders; /* than plan_groups has */
} edges[] = {
    {"no gateway", 0, 2, 0, {{0}}, {0}, {0}, {0}, {0}, {0}, 0, false},
    {"one gateway", 1, 2, 0, {{0}}, {0}, {NOBODY}, {ALONE}, {0}, {0}, 0, false},
    {"two without a link", 2, 2, 0, {{0}}, {0, 1}, {NOBODY, NOBODY}, {ALONE, ALONE}, {0}, {0}, 0, false},
    {"two linked", 2, 2, 1, {{1, 0}}, {0, 1}, {1, 0}, {0, 0}, {0}, {1, 1}, 2, false},
    {"a chain of three", 3, 2, 2, {{0, 1}, {1, 2}}, {0, 1, 2}, {1, 0, 1}, {1, 1, 1}, {0}, {1, 1, 1}, 3, false},
    {"a star of four, T = 3", 5, 3, 4, {{0, 1}, {0, 2}, {0, 3}, {0, 4}}, {0, 1, 2, 3, 4}, {1, 0, 0, 0, NOBODY},
        {0, 0, 0, 0, ALONE}, {1, 0, 0, 0, 0}, {1, 1, 1, 1, 0}, 4, false},
    {"the same from the other end", 5, 3, 4, {{0, 1}, {0, 2}, {0, 3}, {0, 4}}, {4, 3, 2, 1, 0}, {1, NOBODY, 0, 0, 0},
        {0, ALONE, 0, 0, 0}, {1, 0, 0, 0, 0}, {1, 1, 1, 0, 1}, 4, false},
    {"the same with T = 4", 5, 4, 4, {{0, 1}, {0, 2}, {0, 3}, {0, 4}}, {0, 1, 2, 3, 4}, {1, 0, 0, 0, 0}, {0, 0, 0, 0, 0},
        {0}, {1, 1, 1, 1, 1}, 5, false},
    {"the listing's plant", 5, 2, 4, {{0, 2}, {0, 3}, {0, 4}, {1, 2}}, {2, 3, 4, 0, 1}, {2, 2, 1, 0, 0}, {0, 2, 2, 0, 0},
        {0}, {1, 1, 2, 1, 1}, 6, false},
    {"a ring of five", 5, 2, 5, {{0, 1}, {1, 2}, {2, 3}, {3, 4}, {4, 0}}, {0, 1, 2, 3, 4}, {1, 0, 1, 2, 3}, {1, 1, 1, 3, 3},
        {0}, {1, 1, 1, 1, 1}, 5, false},
    {"other holders, the same groups", 5, 2, 6, {{3, 2}, {2, 0}, {3, 4}, {1, 2}, {3, 0}, {0, 1}}, {3, 1, 2, 0, 4},
        {2, 0, 3, 2, 3}, {1, 1, 3, 3, 3}, {0}, {1, 1, 1, 2, 1}, 6, false},
    {"other groups, as many moved", 5, 2, 5, {{4, 2}, {4, 1}, {1, 2}, {3, 4}, {0, 2}}, {4, 2, 3, 1, 0}, {2, 4, 1, 4, 2},
        {2, 4, 2, 4, 4}, {0}, {1, 1, 1, 2, 1}, 6, true},
    {"more moved, other holders, the same groups", 4, 2, 4, {{3, 0}, {3, 1}, {0, 1}, {2, 3}}, {0, 3, 2, 1}, {1, 3, 3, 0},
        {0, 0, 3, 3}, {0}, {1, 1, 1, 2}, 4, false},
    {"more moved, the same holders", 5, 2, 5, {{1, 4}, {0, 1}, {2, 1}, {1, 3}, {3, 4}}, {4, 0, 3, 1, 2}, {1, 4, 1, 4, 3},
        {1, 1, 1, 4, 4}, {0}, {1, 1, 2, 1, 2}, 6, false},
    {"more moved, other groups", 4, 2, 5, {{3, 0}, {1, 3}, {3, 2}, {0, 2}, {0, 1}}, {1, 2, 0, 3}, {3, 0, 3, 0},
        {1, 1, 2, 2}, {0}, {1, 1, 2, 1}, 4, true},
    {"fewer moved in all, the same holders", 6, 2, 6, {{1, 4}, {1, 3}, {3, 4}, {3, 2}, {3, 5}, {0, 1}}, {0, 1, 3, 4, 5, 2},
        {1, 4, 3, 4, 1, 3}, {1, 1, 3, 3, 1, 3}, {0}, {1, 1, 1, 2, 1, 1}, 8, false},
    {"a neighbour reached twice", 8, 2, 8, {{0, 3}, {0, 4}, {1, 5}, {1, 6}, {3, 1}, {4, 1}, {4, 2}, {0, 7}},
        {3, 4, 5, 6, 7, 0, 1, 2}, {3, 5, 4, 0, 2, 1, 1, 0}, {0, 1, 4, 0, 4, 1, 1, 0}, {0}, {1, 1, 1, 1, 2, 1, 1, 1}, 9,
        false},
    {"reached twice, and no place", 7, 2, 7, {{0, 2}, {0, 3}, {1, 4}, {1, 5}, {2, 1}, {3, 1}, {0, 6}},
        {2, 3, 4, 5, 6, 0, 1}, {2, 4, 0, 0, 1, 1, NOBODY}, {0, 1, 0, 0, 1, 1, ALONE}, {1, 1, 0, 0, 0, 0, 0},
        {1, 1, 1, 1, 0, 1, 1}, 6, false},
    {"the second that is held can move", 5, 2, 4, {{0, 1}, {0, 2}, {0, 3}, {2, 4}}, {1, 2, 3, 0, 4}, {1, 0, 4, 0, 2},
        {0, 0, 2, 0, 2}, {0}, {1, 1, 2, 1, 1}, 6, false},
    {"either that is held can move", 6, 2, 5, {{0, 1}, {0, 2}, {0, 3}, {1, 4}, {2, 5}}, {2, 1, 3, 0, 4, 5},
        {1, 4, 0, 0, 1, 2}, {3, 1, 2, 3, 1, 2}, {0}, {1, 1, 2, 1, 1, 1}, 7, false},
    {"a place by the last link", 8, 2, 7, {{0, 1}, {0, 2}, {3, 4}, {3, 5}, {0, 6}, {3, 6}, {6, 7}},
        {1, 2, 4, 5, 6, 0, 3, 7}, {1, 0, 0, 4, 3, 3, 7, 6}, {0, 0, 0, 3, 3, 3, 6, 6}, {0}, {1, 1, 1, 1, 1, 1, 1, 1}, 8,
        false},
    {"a place by the last link of one that is held", 8, 2, 7, {{0, 1}, {0, 2}, {3, 4}, {3, 5}, {1, 3}, {1, 7}, {0, 6}},
        {1, 2, 4, 5, 6, 0, 3, 7}, {1, 7, 0, 4, 3, 3, 0, 1}, {0, 1, 0, 3, 3, 3, 0, 1}, {0}, {1, 1, 1, 1, 2, 1, 1, 1}, 9,
        false},
    {"two deep in vain, and then a place", 9, 2, 8, {{0, 1}, {0, 2}, {3, 4}, {3, 5}, {1, 3}, {0, 6}, {6, 8}, {7, 8}},
        {1, 2, 4, 5, 6, 0, 3, 7, 8}, {1, 0, 0, 4, 3, 3, 8, 8, 6}, {0, 0, 0, 3, 3, 3, 8, 8, 8}, {0},
        {1, 1, 1, 1, 1, 1, 1, 1, 1}, 9, false},
    {"the new one takes one that is held", 4, 2, 4, {{0, 1}, {0, 2}, {0, 3}, {1, 3}}, {1, 2, 3, 0}, {1, 3, 0, 0},
        {2, 1, 2, 1}, {0}, {1, 1, 2, 1}, 4, false},
    {"by the first link, not by the lower number", 5, 2, 4, {{1, 4}, {4, 0}, {0, 2}, {1, 3}}, {4, 2, 3, 0, 1},
        {4, 4, 0, 1, 1}, {2, 1, 2, 1, 1}, {0}, {1, 1, 1, 1, 1}, 5, false},
    {"one that moves twice", 8, 2, 7, {{0, 3}, {1, 3}, {2, 3}, {0, 4}, {0, 5}, {1, 6}, {1, 7}}, {3, 4, 5, 6, 7, 0, 1, 2},
        {4, 3, 3, 2, 0, 0, 1, 1}, {0, 1, 3, 3, 0, 0, 1, 1}, {0}, {1, 1, 2, 1, 2, 1, 1, 2}, 11, false},
    {"the short way by the second link", 12, 2, 11,
        {{0, 3}, {0, 4}, {1, 5}, {1, 6}, {7, 8}, {7, 9}, {3, 1}, {5, 2}, {8, 10}, {11, 0}, {11, 7}},
        {3, 4, 5, 6, 8, 9, 11, 0, 1, 2, 7, 10}, {3, 5, 5, 1, 0, 2, 1, 8, 7, 7, 8, 0}, {0, 1, 5, 1, 0, 5, 1, 9, 8, 9, 8, 0},
        {0}, {1, 1, 1, 1, 1, 1, 3, 1, 1, 1, 1, 1}, 13, true},
    {"to another that the same hub holds", 9, 2, 9,
        {{0, 1}, {0, 2}, {2, 3}, {2, 4}, {0, 5}, {1, 2}, {3, 6}, {1, 7}, {7, 8}}, {1, 2, 3, 4, 5, 0, 6, 7, 8},
        {1, 2, 0, 6, 2, 0, 3, 1, 7}, {5, 2, 2, 3, 2, 5, 3, 7, 7}, {0}, {1, 1, 1, 1, 3, 1, 1, 1, 1}, 10, true},
    {"the worked plant", 10, 2, 10, {{0, 3}, {0, 4}, {1, 4}, {1, 5}, {1, 6}, {2, 6}, {0, 7}, {2, 7}, {0, 8}, {0, 9}},
        {3, 4, 5, 6, 7, 8, 9, 0, 1, 2}, {3, 4, 6, 0, 1, 1, 2, 2, 0, NOBODY}, {0, 1, 2, 0, 1, 1, 2, 2, 0, ALONE},
        {1, 0, 0, 0, 0, 0, 0, 0, 0, 0}, {1, 1, 1, 1, 3, 2, 0, 1, 1, 1}, 11, false},
    {"T = 3, the third can move", 6, 3, 5, {{0, 1}, {0, 2}, {0, 3}, {0, 4}, {3, 5}}, {1, 2, 3, 4, 0, 5}, {1, 0, 0, 5, 0, 3},
        {0, 0, 0, 3, 0, 3}, {0}, {1, 1, 1, 2, 1, 1}, 7, false},
};

enum { EDGES = sizeof edges / sizeof edges[0] };

static struct plant plant;

static long sum_of(const struct edge *e)
{
    long sum = 0;
    for (int i = 0; i < e->n; i++)
        sum += e->moved[i];
    return sum;
}

/* The tests' own search, placing by placing. */
static bool is_searched(const struct edge *e)
{
    struct placed each[MOST];
    int holder[MOST];
    short_each(&plant, each);
    short_first(&plant, e->n, holder);
    for (int i = 0; i < e->n; i++)
        if (each[i].moved != e->moved[i] || holder[i] != e->holder[i])
            return false;
    return true;
}

/* The call's answer; false where there is none. */
static bool answer_of(void (*call)(const struct plant *, enum side, struct outcome *), enum side side, struct answer *a)
{
    static struct outcome o;
    call(&plant, side, &o);
    answer_read(a, plant.n, o.out);
    return o.number == 0 && o.fault == NULL;
}

static bool has_leaders(const struct edge *e, const struct answer *a)
{
    for (int v = 0; v < e->n; v++)
        if (a->leader[v] != e->leader[v])
            return false;
    return true;
}

static bool is_answered(const struct edge *e, enum side side)
{
    static struct answer a;
    if (!answer_of(lent_plan_short, side, &a))
        return false;
    for (int v = 0; v < e->n; v++)
        if (a.choke[v] != e->choke[v])
            return false;
    return has_leaders(e, &a) && a.moved == sum_of(e);
}

/* That plan_groups differs just where it is said to. */
static bool differs_as_said(const struct edge *e)
{
    static struct answer a;
    return answer_of(lent_plan, AT_END, &a) && has_leaders(e, &a) != e->other_leaders && a.moved == e->least;
}

static void check(const struct edge *e, struct rng *r)
{
    plant_fill(&plant, e->n, e->limit, e->m, e->ends, e->order);
    tally(plant.m == e->m, "%s: a link does not stand", e->name);
    tally(is_searched(e), "%s: the tests' own search", e->name);
    tally(is_answered(e, AT_START) && is_answered(e, AT_END), "%s: the answer", e->name);
    tally(differs_as_said(e), "%s: beside plan_groups", e->name);
    const char *fault = judge_short(&plant, r);
    tally(fault == NULL, "%s: %s", e->name, fault);
    fault = judge_short_kept(&plant, r);
    tally(fault == NULL, "%s, placing by placing: %s", e->name, fault);
}

/*
 * A hub that is full when one more comes, and one of those that it holds can move, to a gateway that nobody else is linked
 * to. So these two are a group, and all others are led by the hub.
 */
static void check_row(int limit, int which, struct rng *r)
{
    static struct answer a;
    int one_more = limit + 1, other = limit + 2;
    plant_open(&plant, limit + 3, limit);
    for (int v = 1; v <= one_more; v++)
        plant_link(&plant, 0, v);
    plant_link(&plant, which, other);
    for (int i = 0; i <= one_more; i++)
        plant.order[i] = (i + 1) % other;
    bool ok = answer_of(lent_plan_short, AT_END, &a) && a.moved == plant.n + 1;
    for (int v = 0; v < plant.n; v++)
        ok = ok && a.leader[v] == (v == which || v == other ? which : 0) && a.choke[v] == 0;
    tally(ok, "T %d, held number %d can move", limit, which);
    const char *fault = judge_short(&plant, r);
    tally(fault == NULL, "T %d, held number %d can move: %s", limit, which, fault);
}

/* Each place of a row, up to the sixteenth. */
static void rows(struct rng *r)
{
    for (int limit = 2; limit <= MAX_LIMIT; limit++)
        for (int which = 1; which <= limit; which++)
            check_row(limit, which, r);
}

/* Plants of each kind stand in the table: who leads, and how many move, is not told by plan_groups. */
static void kinds(void)
{
    int leaders = 0, more = 0, fewer = 0, moved_alone = 0, leaders_alone = 0;
    for (int i = 0; i < EDGES; i++) {
        long over = sum_of(&edges[i]) - edges[i].least;
        leaders += edges[i].other_leaders;
        more += over > 0;
        fewer += over < 0;
        moved_alone += over != 0 && !edges[i].other_leaders;
        leaders_alone += over == 0 && edges[i].other_leaders;
    }
    tally(leaders >= 4 && more >= 5 && fewer >= 1, "%d other leaders, %d times more moved, %d times fewer", leaders, more,
          fewer);
    tally(moved_alone >= 4 && leaders_alone >= 1, "%d other numbers alone, %d leaders alone", moved_alone, leaders_alone);
}

int main(void)
{
    struct rng r = {33};
    for (int i = 0; i < EDGES; i++)
        check(&edges[i], &r);
    kinds();
    rows(&r);
    return tally_end();
}
