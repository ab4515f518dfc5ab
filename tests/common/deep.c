#include "deep.h"

/* The last numbers are the hubs', the last of all hub 0's; before them stand those that can move. */
static int hub_at(const struct plant *p, int hub)
{
    return p->n - 1 - hub;
}

static int mover_of(const struct plant *p, int hubs, int hub)
{
    return p->n - 2 * hubs + hub;
}

/* The links to those that a hub holds, so that each one's first link is that to its holder. Returns how many dead ends. */
static int link_held(struct plant *p, int hubs, bool first_is_held)
{
    int dead = 0;
    if (!first_is_held) /* by then its mover has a place free for it */
        plant_link(p, hub_at(p, 0), mover_of(p, hubs, 0));
    for (int hub = 0; hub < hubs; hub++) {
        int others = p->limit - 1;
        if (hub + 1 < hubs) {
            plant_link(p, hub_at(p, hub), hub_at(p, hub + 1));
            others--;
        }
        plant_link(p, hub_at(p, hub), mover_of(p, hubs, hub));
        if (hub == 1 && first_is_held)
            others--;
        for (; others > 0; others--)
            plant_link(p, hub_at(p, hub), ++dead);
    }
    return dead;
}

void deep_make(struct plant *p, int hubs, int limit, enum deep_end end)
{
    bool first_is_held = limit > 2 && hubs > 1;
    plant_open(p, hubs * limit + (first_is_held ? 1 : 2), limit);
    int dead = link_held(p, hubs, first_is_held);
    for (int hub = 0; hub + 1 < hubs; hub++)
        plant_link(p, mover_of(p, hubs, hub), hub_at(p, hub + 1));
    if (end == PLACE_FREE)
        plant_link(p, mover_of(p, hubs, hubs - 1), dead);
    plant_link(p, 0, hub_at(p, 0));
    for (int i = 0; i < p->n; i++)
        p->order[i] = (i + 1) % p->n;
    if (!first_is_held) {
        p->order[p->n - 2] = 0;
        p->order[p->n - 1] = hub_at(p, 0);
    }
}

int deep_most(int limit)
{
    return (MAX_GATEWAYS - 1) / limit;
}

int deep_place(const struct plant *p)
{
    int i = 0;
    while (p->order[i] != 0)
        i++;
    return i;
}

/* Those between the hubs have the numbers from 0 on. Then comes the first at the last hub, which moves to a dead end. */
static void link_swing(struct plant *p, int hubs, int pairs)
{
    int last = hub_at(p, hubs - 1), dead = last - 1, first = hubs - 1;
    plant_link(p, hub_at(p, 0), 0); /* where hub 0 finds a place at the end */
    for (int hub = 0; hub + 1 < hubs; hub++) {
        plant_link(p, hub_at(p, hub), hub_at(p, hub + 1));
        plant_link(p, hub_at(p, hub), hub);
    }
    plant_link(p, last, first);
    plant_link(p, last, dead);
    plant_link(p, first, dead);
    for (int hub = 0; hub + 1 < hubs; hub++)
        plant_link(p, hub, hub_at(p, hub + 1));
    for (int i = 0; i < pairs; i++) {
        int to_first = hubs + 2 * i, to_last = to_first + 1;
        plant_link(p, to_first, hub_at(p, 0));
        plant_link(p, to_last, last);
        plant_link(p, to_first, to_last);
    }
}

void swing_make(struct plant *p, int hubs, int pairs)
{
    int at = 0;
    plant_open(p, 2 * hubs + 2 * pairs + 1, 2);
    link_swing(p, hubs, pairs);
    for (int v = 0; v < hubs; v++)
        p->order[at++] = v;
    for (int v = hubs + 2 * pairs; v < p->n - 1; v++)
        p->order[at++] = v;
    for (int v = hubs; v < hubs + 2 * pairs; v++)
        p->order[at++] = v;
    p->order[at] = p->n - 1;
}
