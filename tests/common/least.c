#include "least.h"

#include "placing.h"

/*
 * What is left of the network where the holders are its flow: arcs from the source to each gateway that gives and holds
 * fewer than its limit, from each that gives to each neighbour that it could take, and back from each that is held to its
 * holder. A way from the source to v brings in one unit more. To take a gateway costs 1, as it has another holder then; to
 * let it go costs nothing, as another takes it. The flow that is there has cost nothing, so that it is a cheapest of its
 * size, and on a cheapest flow a cheapest way leads to a cheapest flow of one unit more.
 */

enum { SOURCE = 0, MAX_NODES = 1 + 2 * MAX_GATEWAYS, MAX_ARCS = 2 * MAX_GATEWAYS + 2 * MAX_LINKS, FAR = 1 << 20 };

struct arc {
    int from, to, cost;
};

struct rest {
    int arcs;
    struct arc arc[MAX_ARCS];
    int cost_to[MAX_NODES];
};

static int giving(int v)
{
    return 1 + 2 * v;
}

static int taking(int v)
{
    return 2 + 2 * v;
}

static void add_arc(struct rest *g, int from, int to, int cost)
{
    g->arc[g->arcs++] = (struct arc){from, to, cost};
}

static void add_take(struct rest *g, const int *holder, int u, int w)
{
    if (holder[w] != u)
        add_arc(g, giving(u), taking(w), 1);
}

static void build(struct rest *g, const struct plant *p, const int *holder)
{
    int holds[MAX_GATEWAYS] = {0};
    g->arcs = 0;
    for (int w = 0; w < p->n; w++) {
        if (holder[w] == NOBODY)
            continue;
        holds[holder[w]]++;
        add_arc(g, taking(w), giving(holder[w]), 0);
    }
    for (int u = 0; u < p->n; u++)
        if (holds[u] < p->limits[u])
            add_arc(g, SOURCE, giving(u), 0);
    for (int i = 0; i < p->m; i++) {
        add_take(g, holder, p->ends[i][0], p->ends[i][1]);
        add_take(g, holder, p->ends[i][1], p->ends[i][0]);
    }
}

/* Goes through all arcs until none makes a way cheaper (Bellman and Ford). */
static void settle(struct rest *g, int nodes)
{
    bool cheaper = true;
    for (int x = 0; x < nodes; x++)
        g->cost_to[x] = x == SOURCE ? 0 : FAR;
    while (cheaper) {
        cheaper = false;
        for (int i = 0; i < g->arcs; i++) {
            const struct arc *a = &g->arc[i];
            if (g->cost_to[a->from] + a->cost < g->cost_to[a->to]) {
                g->cost_to[a->to] = g->cost_to[a->from] + a->cost;
                cheaper = true;
            }
        }
    }
}

int least_moved(const struct plant *p, const int *holder, int v)
{
    static struct rest g;
    build(&g, p, holder);
    settle(&g, 1 + 2 * p->n);
    int cost = g.cost_to[taking(v)];
    return cost < FAR ? cost : 0;
}
