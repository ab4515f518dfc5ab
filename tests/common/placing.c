#include "placing.h"

#include <string.h>

#include "neighbours.h"

struct search {
    const struct plant *plant;
    const struct neighbours *near;
    const int *holder;
    int queue[MAX_GATEWAYS];
    int head, tail;
    bool takes; /* whether the search ends where a neighbour has a place free */
    int seen_from[MAX_GATEWAYS]; /* NOBODY where not yet seen */
};

static void begin(struct search *s, const struct plant *p, const struct neighbours *near, const int *holder, bool takes)
{
    s->plant = p;
    s->near = near;
    s->holder = holder;
    s->head = s->tail = 0;
    s->takes = takes;
    for (int v = 0; v < p->n; v++)
        s->seen_from[v] = NOBODY;
}

/* What u holds joins the queue, ascending. */
static void join(struct search *s, int u)
{
    for (int v = 0; v < s->plant->n; v++)
        if (s->holder[v] == u)
            s->queue[s->tail++] = v;
}

static bool has_place(const struct search *s, int u)
{
    return holders_count(s->plant->n, s->holder, u) < s->plant->limits[u];
}

/* Goes on until a neighbour that can take one more is seen, and returns it; NOBODY where the queue runs out. */
static int search(struct search *s)
{
    while (s->head < s->tail) {
        int x = s->queue[s->head++];
        for (int i = s->near->start[x]; i < s->near->start[x + 1]; i++) {
            int u = s->near->list[i];
            if (s->seen_from[u] != NOBODY)
                continue;
            s->seen_from[u] = x;
            if (s->takes && has_place(s, u))
                return u;
            join(s, u);
        }
    }
    return NOBODY;
}

/* u takes x; x's old holder takes the gateway it was seen from; and so on until v has a holder. */
static void take(const struct search *s, int u, int v, int *holder)
{
    int x;
    do {
        x = s->seen_from[u];
        int old = holder[x];
        holder[x] = u;
        u = old;
    } while (x != v);
}

static int place(const struct plant *p, const struct neighbours *near, int v, int *holder)
{
    static struct search s;
    int before[MAX_GATEWAYS];
    memcpy(before, holder, (size_t)p->n * sizeof before[0]);
    begin(&s, p, near, holder, true);
    s.queue[s.tail++] = v;
    int u = search(&s);
    if (u != NOBODY)
        take(&s, u, v, holder);
    return holders_changed(p->n, before, holder);
}

static void place_first(const struct plant *p, int k, int *holder, int *moved)
{
    static struct neighbours near;
    neighbours_gather(p, &near);
    for (int v = 0; v < p->n; v++)
        holder[v] = NOBODY;
    for (int i = 0; i < k; i++)
        moved[i] = place(p, &near, p->order[i], holder);
}

long placing_first(const struct plant *p, int k, int *holder)
{
    int moved[MAX_GATEWAYS];
    long sum = 0;
    place_first(p, k, holder, moved);
    for (int i = 0; i < k; i++)
        sum += moved[i];
    return sum;
}

void placing_each(const struct plant *p, int *moved)
{
    int holder[MAX_GATEWAYS];
    place_first(p, p->n, holder, moved);
}

int placing_one(const struct plant *p, int v, int *holder)
{
    static struct neighbours near;
    neighbours_gather(p, &near);
    return place(p, &near, v, holder);
}

/* Walks on from what stands in the queue until it runs out. */
static void walk(struct search *s, int *seen)
{
    search(s);
    for (int u = 0; u < s->plant->n; u++)
        seen[u] = s->seen_from[u] != NOBODY;
}

void placing_choke(const struct plant *p, const int *holder, int *choke)
{
    static struct neighbours near;
    static struct search s;
    neighbours_gather(p, &near);
    begin(&s, p, &near, holder, false);
    join(&s, NOBODY);
    walk(&s, choke);
}

void placing_walk(const struct plant *p, const int *holder, int v, int *queued, int *seen)
{
    static struct neighbours near;
    static struct search s;
    neighbours_gather(p, &near);
    begin(&s, p, &near, holder, false);
    s.queue[s.tail++] = v;
    walk(&s, seen);
    for (int x = 0; x < p->n; x++)
        queued[x] = 0;
    for (int i = 0; i < s.tail; i++)
        queued[s.queue[i]] = 1;
}
