#include "quick_link.h"

#include <string.h>

static bool linked[MAX_GATEWAYS][MAX_GATEWAYS];

void quick_open(struct plant *p, int n, int limit)
{
    memset(linked, 0, sizeof linked);
    plant_open(p, n, limit);
}

void quick_link(struct plant *p, int a, int b)
{
    if (a == b || a >= p->n || b >= p->n || p->m == MAX_LINKS || linked[a][b])
        return;
    linked[a][b] = linked[b][a] = true;
    p->ends[p->m][0] = a;
    p->ends[p->m][1] = b;
    p->m++;
}

void quick_fill(struct plant *p, struct rng *r, int m, struct range a, struct range b)
{
    int tries = 4 * m + 100; /* there may not be so many links */
    while (p->m < m && tries-- > 0)
        quick_link(p, rng_between(r, a.from, a.end - 1), rng_between(r, b.from, b.end - 1));
}
