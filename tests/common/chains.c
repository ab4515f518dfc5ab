#include "chains.h"

static void make(struct plant *p, int hubs, int limit, bool full)
{
    int leaves = hubs * limit, one_more = hubs + leaves;
    plant_open(p, one_more + 1, limit);
    for (int i = 0; i < leaves; i++)
        plant_link(p, i / limit, hubs + i);
    for (int hub = 0; hub < hubs; hub++) {
        int first = hubs + limit * hub;
        if (hub + 1 < hubs)
            plant_link(p, first, hub + 1);
        else if (!full)
            plant_link(p, first, first + 1);
    }
    plant_link(p, 0, one_more);
    for (int i = 0; i <= one_more; i++)
        p->order[i] = (hubs + i) % (one_more + 1);
}

void chain_make(struct plant *p, int hubs, int limit)
{
    make(p, hubs, limit, false);
}

void chain_make_full(struct plant *p, int hubs, int limit)
{
    make(p, hubs, limit, true);
}

/* A leaf looks at its first link first. */
static void add_leaf(struct plant *p, int leaf, int first, int second, int *placed)
{
    plant_link(p, leaf, first);
    plant_link(p, leaf, second);
    p->order[(*placed)++] = leaf;
}

/*
 * Links and places the leaves between the hubs lo to hi so that T places stay free: all at hi, or all at lo. Each half has
 * its free places at its far end, so that both ways are as long, and the leaf's first link decides which half is filled.
 */
static void join_line(struct plant *p, int lo, int hi, bool free_at_hi, int hubs, int *placed)
{
    if (lo == hi)
        return;
    int mid = lo + (hi - lo) / 2, filled = free_at_hi ? mid : mid + 1, other = free_at_hi ? mid + 1 : mid;
    join_line(p, lo, mid, false, hubs, placed);
    join_line(p, mid + 1, hi, true, hubs, placed);
    for (int i = 0; i < p->limit; i++)
        add_leaf(p, hubs + p->limit * mid + i, filled, other, placed);
}

void line_make(struct plant *p, int power, int limit)
{
    int hubs = 1 << power, placed = 0;
    plant_open(p, hubs * (limit + 1), limit);
    join_line(p, 0, hubs - 1, true, hubs, &placed);
    for (int leaf = hubs + limit * (hubs - 1); leaf < p->n; leaf++)
        add_leaf(p, leaf, 0, 0, &placed);
    for (int hub = 0; hub < hubs; hub++)
        p->order[placed++] = hub;
}
