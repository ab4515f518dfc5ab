#include "packing.h"

static bool leads_itself(const struct plant *p, const int *leader, int v)
{
    int members = 0;
    for (int w = 0; w < p->n; w++)
        members += w != v && leader[w] == v;
    return 1 <= members && members <= p->limits[v];
}

static bool entry_is_good(const struct plant *p, const int *leader, int v)
{
    int u = leader[v];
    if (u == ALONE)
        return true;
    if (u < 0 || u >= p->n)
        return false;
    if (u == v)
        return leads_itself(p, leader, v);
    return leader[u] == u && plant_has_link(p, u, v);
}

bool packing_is(const struct plant *p, const int *leader)
{
    for (int v = 0; v < p->n; v++)
        if (!entry_is_good(p, leader, v))
            return false;
    return true;
}

int packing_difference(const struct plant *p, const int *choke)
{
    bool linked[MAX_GATEWAYS] = {false};
    int difference = 0;

    for (int i = 0; i < p->m; i++) {
        int a = p->ends[i][0], b = p->ends[i][1];
        if (!choke[a] && !choke[b])
            linked[a] = linked[b] = true;
    }
    for (int v = 0; v < p->n; v++) {
        if (choke[v])
            difference -= p->limits[v];
        else if (!linked[v])
            difference += 1;
    }
    return difference;
}

int packing_alone(const struct plant *p, const int *leader)
{
    return p->n - answer_covered(p, leader, p->n);
}
