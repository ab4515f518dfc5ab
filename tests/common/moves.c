#include "moves.h"

#include <string.h>

#include "packing.h"

static int count_members(const struct plant *p, const int *leader, int u)
{
    int count = 0;
    for (int w = 0; w < p->n; w++)
        count += w != u && leader[w] == u;
    return count;
}

/* v is alone then, and so is who led nobody else, or was led by v. */
static void leave(const struct plant *p, int v, int *leader)
{
    int u = leader[v];
    leader[v] = ALONE;
    for (int w = 0; w < p->n; w++)
        if (u == v && leader[w] == v)
            leader[w] = ALONE;
    if (u != ALONE && u != v && count_members(p, leader, u) == 0)
        leader[u] = ALONE;
}

/* Some member of u but not this one; u has others. */
static int other_member(const struct plant *p, struct rng *r, const int *leader, int u, int not_this)
{
    int w;
    do
        w = rng_below(r, p->n);
    while (w == u || w == not_this || leader[w] != u);
    return w;
}

/* a leads b; where it leads too many then, another of them is alone. */
static void join(const struct plant *p, struct rng *r, int a, int b, int *leader)
{
    leave(p, b, leader);
    if (leader[a] != a)
        leave(p, a, leader);
    leader[a] = leader[b] = a;
    if (count_members(p, leader, a) > p->limits[a])
        leader[other_member(p, r, leader, a, b)] = ALONE;
}

void moves_make(const struct plant *p, struct rng *r, int times, int *leader)
{
    int changed[MAX_GATEWAYS];
    size_t size = (size_t)p->n * sizeof leader[0];
    for (; times > 0 && p->m > 0; times--) {
        const int *ends = p->ends[rng_below(r, p->m)];
        int side = rng_below(r, 2);
        memcpy(changed, leader, size);
        join(p, r, ends[side], ends[1 - side], changed);
        if (packing_alone(p, changed) <= packing_alone(p, leader))
            memcpy(leader, changed, size);
    }
}

bool moves_leave(const struct plant *p, struct rng *r, int *leader)
{
    int found = ALONE, from = rng_below(r, p->n);
    for (int i = 0; i < p->n; i++) {
        int v = (from + i) % p->n, u = leader[v];
        if (u == ALONE || u == v)
            continue;
        found = v;
        if (count_members(p, leader, u) > 1)
            break;
    }
    if (found != ALONE)
        leave(p, found, leader);
    return found != ALONE;
}
