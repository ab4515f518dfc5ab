#include "short_search.h"

#include <string.h>

#include "neighbours.h"

struct search {
    const struct plant *plant;
    const struct neighbours *near;
    int *holder;
    bool tried[MAX_GATEWAYS];
    int depth, deepest;
};

static bool find_holder(struct search *s, int v);

/* Makes sure that u holds fewer than its limit: by now, or since one that it holds finds another holder. */
static bool free_place(struct search *s, int u)
{
    int n = s->plant->n;
    if (holders_count(n, s->holder, u) < s->plant->limits[u])
        return true;
    for (int x = 0; x < n; x++)
        if (s->holder[x] == u && find_holder(s, x))
            return true;
    return false;
}

/* The first neighbour not yet tried at which a place can be freed holds v from now on. */
static bool find_by_links(struct search *s, int v)
{
    for (int i = s->near->start[v]; i < s->near->start[v + 1]; i++) {
        int u = s->near->list[i];
        if (s->tried[u])
            continue;
        s->tried[u] = true;
        if (free_place(s, u)) {
            s->holder[v] = u;
            return true;
        }
    }
    return false;
}

static bool find_holder(struct search *s, int v)
{
    s->depth++;
    if (s->depth > s->deepest)
        s->deepest = s->depth;
    bool found = find_by_links(s, v);
    s->depth--;
    return found;
}

static struct placed place(const struct plant *p, const struct neighbours *near, int v, int *holder)
{
    struct search s = {.plant = p, .near = near, .holder = holder};
    int before[MAX_GATEWAYS];
    memcpy(before, holder, (size_t)p->n * sizeof before[0]);
    find_holder(&s, v);
    return (struct placed){holders_changed(p->n, before, holder), s.deepest};
}

static void place_first(const struct plant *p, int k, int *holder, struct placed *each)
{
    static struct neighbours near;
    neighbours_gather(p, &near);
    for (int v = 0; v < p->n; v++)
        holder[v] = NOBODY;
    for (int i = 0; i < k; i++)
        each[i] = place(p, &near, p->order[i], holder);
}

long short_first(const struct plant *p, int k, int *holder)
{
    struct placed each[MAX_GATEWAYS];
    long sum = 0;
    place_first(p, k, holder, each);
    for (int i = 0; i < k; i++)
        sum += each[i].moved;
    return sum;
}

void short_each(const struct plant *p, struct placed *each)
{
    int holder[MAX_GATEWAYS];
    place_first(p, p->n, holder, each);
}

struct placed short_one(const struct plant *p, int v, int *holder)
{
    static struct neighbours near;
    neighbours_gather(p, &near);
    return place(p, &near, v, holder);
}
