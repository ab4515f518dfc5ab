#include "bad_shapes.h"

#include "chains.h"
#include "deep.h"
#include "quick_link.h"

static int least(int a, int b)
{
    return a < b ? a : b;
}

/* Mostly as many links as a plant of so many gateways can have. */
static int any_links(const struct plant *p, struct rng *r)
{
    int most = least(8 * p->n, MAX_LINKS);
    return rng_below(r, 2) == 0 ? most : rng_between(r, p->n / 2, most);
}

static struct range all(const struct plant *p)
{
    return (struct range){0, p->n};
}

static void link_random(struct plant *p, struct rng *r)
{
    quick_fill(p, r, any_links(p, r), all(p), all(p));
}

/* The lower a number is, the more links it has; the more so, the higher the power. */
static int lower_rather(struct rng *r, int n, int power)
{
    double chance = 1;
    while (power-- > 0)
        chance *= rng_below(r, 1 << 20) / (double)(1 << 20);
    return (int)(n * chance);
}

static void link_power(struct plant *p, struct rng *r)
{
    int m = any_links(p, r), a = rng_between(r, 1, 5), b = rng_between(r, 1, 3);
    for (int tries = 8 * m; tries > 0 && p->m < m; tries--)
        quick_link(p, lower_rather(r, p->n, a), lower_rather(r, p->n, b));
}

/* Links between the two sides only, but for a few. */
static void link_sides(struct plant *p, struct rng *r)
{
    int left = rng_between(r, 1, p->n / 2), m = any_links(p, r);
    quick_fill(p, r, m - rng_below(r, 64), (struct range){0, left}, (struct range){left, p->n});
    if (rng_below(r, 2) == 0)
        quick_fill(p, r, m, all(p), all(p));
}

/* Layers of equal width, each gateway linked to some of the layer before it. */
static void link_layers(struct plant *p, struct rng *r)
{
    int width = rng_between(r, 1, rng_below(r, 2) == 0 ? 8 : 128), each = rng_between(r, 1, 10);
    for (int v = width; v < p->n; v++)
        for (int i = 0; i < each; i++)
            quick_link(p, v, v / width * width - width + rng_below(r, width));
}

/* A tree whose gateways hang from one of the last so many, and some links more. */
static void link_tree_and_more(struct plant *p, struct rng *r)
{
    int last = 1 << rng_between(r, 0, 10);
    for (int v = 1; v < p->n; v++)
        quick_link(p, v, rng_between(r, v < last ? 0 : v - last, v - 1));
    if (rng_below(r, 2) == 0)
        quick_fill(p, r, any_links(p, r), all(p), all(p));
}

/* Rows of equal width, each gateway linked to those beside and below it, and to some farther down. */
static void link_grid(struct plant *p, struct rng *r)
{
    int width = rng_between(r, 2, 64), deep = rng_between(r, 1, 7);
    for (int v = 0; v < p->n; v++) {
        if ((v + 1) % width != 0)
            quick_link(p, v, v + 1);
        for (int i = 1; i <= deep; i++)
            quick_link(p, v, v + i * width);
    }
}

/* Cliques of equal size as long as there is room for links, and paths that hang from them. */
static void link_cliques(struct plant *p, struct rng *r)
{
    int size = rng_between(r, 3, 128), end = 0, tail = rng_between(r, 1, 64);
    int kept = p->n - (rng_below(r, 2) == 0 ? 0 : p->n / 2);
    for (; end + size <= kept && p->m + size * size / 2 + p->n <= MAX_LINKS; end += size)
        for (int b = end; b < end + size; b++)
            for (int a = end; a < b; a++)
                quick_link(p, a, b);
    for (int v = end; v < p->n; v++)
        quick_link(p, v, end == 0 || (v - end) % tail > 0 ? v - 1 + (v == 0) : rng_below(r, end));
}

/*
 * Stars whose leaves are at some of the next so many hubs, from a hub on that moves along with them or is any. Every other
 * time the hubs have about as many places as there are leaves.
 */
static void link_stars(struct plant *p, struct rng *r)
{
    int hubs = rng_below(r, 2) == 0 ? rng_between(r, 2, p->n / 3) : p->n / (p->limit + 1) + rng_below(r, 4);
    int each = rng_between(r, 1, 12), next = 1 << rng_between(r, 0, 9);
    bool along = rng_below(r, 2) == 0;
    for (int v = hubs; v < p->n; v++) {
        int start = along ? (int)((long)(v - hubs) * hubs / (p->n - hubs)) : rng_below(r, hubs);
        for (int i = 0; i < each; i++)
            quick_link(p, v, (start + rng_below(r, next)) % hubs);
    }
}

/* Each is linked to the next so many round the ring, and some links cross it. */
static void link_ring_and_more(struct plant *p, struct rng *r)
{
    int far = rng_between(r, 1, 8);
    for (int v = 0; v < p->n; v++)
        for (int i = 1; i <= far; i++)
            quick_link(p, v, (v + i) % p->n);
    quick_fill(p, r, p->m + rng_below(r, 1 + p->n), all(p), all(p));
}

/*
 * Full hubs hold inner leaves, each with links to many of them and, after these, to many of as many next hubs. Those are
 * full too, of outer leaves that can move to free hubs. Then more leaves come, one after the other, to the first hubs: each
 * moves an inner and an outer leaf, and the search goes through all inner leaves before it finds the free hub. All hubs come
 * last in the order.
 */
static void link_core(struct plant *p, struct rng *r)
{
    int t = p->limit, most = p->n / (3 * t + 3), hubs = rng_between(r, 1 + most / 2, most), held = t * hubs;
    int room = MAX_LINKS / held - 3, each = rng_between(r, 1, least(hubs, room)), next_each = least(hubs, room - each + 1);
    int inner = held, late = 2 * held, hub = 3 * held, next = hub + hubs, free_hub = next + hubs;
    for (int i = 0; i < held; i++) {
        quick_link(p, i, next + i / t);
        quick_link(p, i, free_hub + i / t);
        quick_link(p, late + i, hub + i / t);
    }
    for (int j = 0; j < each; j++)
        for (int i = 0; i < held; i++)
            quick_link(p, inner + i, hub + (i / t + j) % hubs);
    for (int j = 0; j < next_each; j++)
        for (int i = 0; i < held; i++)
            quick_link(p, inner + i, next + j);
}

/*
 * Hubs in a line, each full of leaves that can move to the next hub and back to so many before it; the last of them has
 * places free. Those that come then are at the first hubs, and must move one of each.
 */
static void link_line(struct plant *p, struct rng *r)
{
    int t = p->limit, late = least(rng_between(r, t, 4 * t), p->n / 4);
    int hubs = (p->n - late) / (t + 1), held = t * (hubs - 1), hub = held + late;
    int each = rng_between(r, 0, MAX_LINKS / p->n), wide = rng_between(r, 1, 4);
    for (int i = 0; i < held; i++) {
        quick_link(p, i, hub + i / t);
        for (int j = 0; j < each && i >= t; j++)
            quick_link(p, i, hub + rng_below(r, i / t));
        quick_link(p, i, hub + i / t + 1);
    }
    for (int i = 0; i < late; i++)
        quick_link(p, held + i, hub + rng_below(r, least(wide, hubs)));
}

/* The plants of the tests that move many or search deep, as large as they can be. */
static void link_far(struct plant *p, struct rng *r)
{
    int power = 0, most = p->n;
    while (2 << power <= most / (p->limit + 1))
        power++;
    if (rng_below(r, 2) == 0)
        line_make(p, power, p->limit);
    else
        deep_make(p, (most - 2) / p->limit, p->limit, rng_below(r, 2) == 0 ? PLACE_FREE : IN_VAIN);
}

const struct bad_shape bad_shapes[] = {
    {"random", link_random},
    {"power law", link_power},
    {"two sides", link_sides},
    {"layers", link_layers},
    {"tree", link_tree_and_more},
    {"grid", link_grid},
    {"cliques", link_cliques},
    {"stars", link_stars},
    {"ring", link_ring_and_more},
    {"core", link_core},
    {"line", link_line},
    {"far", link_far},
};

const int bad_shape_count = sizeof bad_shapes / sizeof bad_shapes[0];
