/*
 * Shapes that random links hardly ever give: long moves when a gateway is placed, and long cycles of
 * holders. What happens depends on which link comes first, so links and order stay as they are made.
 */
#include "families.h"
#include "shapes.h"

/* The links of a few hubs come first, so that these are soon full and the rest is left to chance. */
void link_crowd(struct plant *p, struct rng *r)
{
    int hubs = 1 + p->n / 4;
    for (int v = 0; v < p->n; v++)
        for (int u = 0; u < hubs && u < p->n; u++)
            plant_link(p, u, v);
    family_fill(p, r, p->m + p->n);
    rng_shuffle(r, p->order, p->n);
}

/* Which of the hubs holds that leaf, where hub 0 holds the first leaves, as many as it can, and so on. */
static int hub_of(const struct plant *p, int leaf)
{
    int hub = 0;
    for (; leaf >= p->limits[hub]; hub++)
        leaf -= p->limits[hub];
    return hub;
}

/*
 * Hubs are filled one after the other, and each leaf is also linked to the hub after its own; the last
 * hub keeps a few places. A leaf more at hub 0 can then only be held if leaves move all the way up.
 */
void link_stairs(struct plant *p, struct rng *r)
{
    int hubs = 1, places = p->limits[0];
    for (int rest = p->n; rest >= p->limits[hubs - 1] + 2; places += p->limits[hubs++])
        rest -= p->limits[hubs - 1] + 2;
    int more = places - rng_between(r, 1, p->limit); /* leaves from here on are too many */
    for (int v = hubs; v < p->n; v++) {
        int leaf = v - hubs;
        int hub = leaf < more ? hub_of(p, leaf) : 0;
        plant_link(p, v, hub);
        if (leaf < more)
            plant_link(p, v, (hub + 1) % hubs);
    }
    for (int i = 0; i < p->n; i++)
        p->order[i] = (i + hubs) % p->n;
}

/*
 * The gateways from 0 to before ring come to hold each other round the ring, 0 holding 1 and so on. So
 * that 1 does not take 0, it is made full by then: by helpers, one fewer than its limit, each of which
 * holds another and so leads it, and by gateway 2. Gateway 0 is placed last of the ring.
 */
static void link_cycle(struct plant *p, int ring, int helpers)
{
    int at = 0;
    for (int v = 0; v < ring; v++)
        plant_link(p, v, (v + 1) % ring);
    for (int i = 0; i < helpers; i++) {
        int x = ring + 2 * i;
        plant_link(p, 1, x);
        plant_link(p, x, x + 1);
        p->order[at++] = x;
        p->order[at++] = x + 1;
    }
    for (int v = 1; v <= ring; v++)
        p->order[at++] = v % ring;
}

void link_bare_cycle(struct plant *p, struct rng *r)
{
    int helpers = p->limits[1] - 1;
    int ring = p->n - 2 * helpers;
    if (ring < 3)
        link_dense(p, r);
    else
        link_cycle(p, ring, helpers);
}

/* The cycle with trees hanging from it, so that some on it lead. */
void link_hung_cycle(struct plant *p, struct rng *r)
{
    int helpers = p->limits[1] - 1;
    int most = p->n - 2 * helpers;
    if (most < 3) {
        link_dense(p, r);
        return;
    }
    int ring = rng_between(r, 3, most);
    int hung = ring + 2 * helpers;
    link_cycle(p, ring, helpers);
    for (int v = hung; v < p->n; v++) {
        bool deeper = v > hung && rng_below(r, 3) == 0;
        plant_link(p, deeper ? rng_between(r, hung, v - 1) : rng_below(r, ring), v);
    }
}
