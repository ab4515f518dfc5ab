/* The cases of document 01, "At the edges", that the call can show. */
#include "judge.h"
#include "lent.h"
#include "packing.h"
#include "tally.h"

enum { MOST = 8 };

struct edge {
    const char *name;
    int n, limit, m;
    int ends[MOST][2];
    int order[MOST];
    int leader[MOST];
    int choke[MOST];
    int difference;
    int moved;
};

#define STAR {{0, 1}, {0, 2}, {0, 3}, {0, 4}}

static const struct edge edges[] = {
    {"no gateway", 0, 2, 0, {{0}}, {0}, {0}, {0}, 0, 0},
    {"one gateway", 1, 2, 0, {{0}}, {0}, {ALONE}, {0}, 1, 0},
    {"two without a link", 2, 2, 0, {{0}}, {0, 1}, {ALONE, ALONE}, {0}, 2, 0},
    {"two linked", 2, 2, 1, {{1, 0}}, {0, 1}, {0, 0}, {0}, 0, 2},
    {"a chain of three", 3, 2, 2, {{0, 1}, {1, 2}}, {0, 1, 2}, {1, 1, 1}, {0}, 0, 3},
    {"a star of four, T = 3", 5, 3, 4, STAR, {0, 1, 2, 3, 4}, {0, 0, 0, 0, ALONE}, {1}, 1, 4},
    {"the same from the other end", 5, 3, 4, STAR, {4, 3, 2, 1, 0}, {0, ALONE, 0, 0, 0}, {1}, 1, 4},
    {"the same with T = 4", 5, 4, 4, STAR, {0, 1, 2, 3, 4}, {0, 0, 0, 0, 0}, {0}, 0, 5},
    {"the listing's plant", 5, 2, 4, {{0, 2}, {0, 3}, {0, 4}, {1, 2}}, {2, 3, 4, 0, 1}, {0, 2, 2, 0, 0}, {0}, 0, 6},
    {"a ring of five", 5, 2, 5, {{0, 1}, {1, 2}, {2, 3}, {3, 4}, {4, 0}}, {0, 1, 2, 3, 4}, {1, 1, 1, 3, 3}, {0}, 0, 5},
};

static struct plant plant;

static bool is_answered(const struct edge *e)
{
    static struct outcome o;
    static struct answer a;
    lent_plan(&plant, AT_END, &o);
    if (o.number != 0 || o.fault != NULL)
        return false;
    answer_read(&a, e->n, o.out);
    for (int v = 0; v < e->n; v++)
        if (a.leader[v] != e->leader[v] || a.choke[v] != e->choke[v])
            return false;
    return packing_difference(&plant, a.choke) == e->difference && a.moved == e->moved;
}

int main(void)
{
    struct rng r = {3};
    for (size_t i = 0; i < sizeof edges / sizeof edges[0]; i++) {
        const struct edge *e = &edges[i];
        plant_fill(&plant, e->n, e->limit, e->m, e->ends, e->order);
        tally(is_answered(e), "%s", e->name);
        const char *fault = judge_plant(&plant, &r);
        tally(fault == NULL, "%s: %s", e->name, fault);
    }
    return tally_end();
}
