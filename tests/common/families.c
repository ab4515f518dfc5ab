#include "families.h"

#include <string.h>

#include "any_limits.h"
#include "orders.h"
#include "shapes.h"

const struct family families[] = {
    {"no links", link_nothing, false},
    {"dense", link_dense, false},
    {"sparse", link_sparse, false},
    {"ring", link_one_ring, false},
    {"chain of rings", link_ring_chain, false},
    {"ring with trees", link_ring_trees, false},
    {"star", link_star, false},
    {"hubs", link_hubs, false},
    {"complete bipartite", link_bipartite, false},
    {"tree", link_tree, false},
    {"deep tree", link_deep_tree, false},
    {"tree and more", link_near_tree, false},
    {"crowd", link_crowd, true},
    {"stairs", link_stairs, true},
    {"bare cycle", link_bare_cycle, true},
    {"hung cycle", link_hung_cycle, true},
};

const int family_count = sizeof families / sizeof families[0];

const struct family scarce = {"too few places", link_scarce, false};

const int family_turn = sizeof families / sizeof families[0] + 1;

const struct family *family_in_turn(int i)
{
    i %= family_turn;
    return i < family_count ? &families[i] : &scarce;
}

const struct family *family_named(const char *name)
{
    const struct family *f = families;
    while (strcmp(f->name, name) != 0)
        f++;
    return f;
}

void family_graph(struct plant *p, int n, int limit, int bits)
{
    plant_open(p, n, limit);
    for (int a = 0; a < n; a++)
        for (int b = a + 1; b < n; b++, bits /= 2)
            if (bits % 2 == 1)
                plant_link(p, a, b);
}

static void each_graph(struct plant *p, int n, int limit, void (*check)(struct rng *r), struct rng *r)
{
    for (int bits = 0; bits < 1 << (n * (n - 1) / 2); bits++) {
        family_graph(p, n, limit, bits);
        do {
            check(r);
        } while (order_next(p->order, n));
    }
}

void family_small(struct plant *p, void (*check)(struct rng *r), struct rng *r)
{
    for (int n = 0; n <= 3; n++)
        for (int limit = 2; limit <= 16; limit += 7)
            each_graph(p, n, limit, check, r);
    each_graph(p, 4, 2, check, r);
    each_graph(p, 4, 3, check, r);
}

void family_fill(struct plant *p, struct rng *r, int m)
{
    int tries = 20 * m + 100; /* there may not be so many links */
    while (p->m < m && p->n > 1 && tries-- > 0)
        plant_link(p, rng_below(r, p->n), rng_below(r, p->n));
}

/* What is said of gateway v is said of gateway name[v]. */
static void rename_own(struct plant *p, const int *name)
{
    uint8_t kinds[MAX_GATEWAYS], limit_bytes[MAX_GATEWAYS];
    memcpy(kinds, p->kinds, sizeof kinds);
    memcpy(limit_bytes, p->limit_bytes, sizeof limit_bytes);
    for (int v = 0; v < p->n; v++)
        plant_set_own(p, name[v], kinds[v], limit_bytes[v]);
}

/* Gateway v becomes gateway name[v], so that no number means anything. */
static void rename_gateways(struct plant *p, struct rng *r)
{
    int name[MAX_GATEWAYS];
    rng_shuffle(r, name, p->n);
    for (int i = 0; i < p->m; i++)
        for (int side = 0; side < 2; side++)
            p->ends[i][side] = name[p->ends[i][side]];
    for (int i = 0; i < p->n; i++)
        p->order[i] = name[p->order[i]];
    if (p->version == 2)
        rename_own(p, name);
}

static void swap(int *a, int *b)
{
    int kept = *a;
    *a = *b;
    *b = kept;
}

static void shuffle_links(struct plant *p, struct rng *r)
{
    for (int i = 0; i < p->m; i++) {
        int j = rng_below(r, i + 1);
        swap(&p->ends[i][0], &p->ends[j][0]);
        swap(&p->ends[i][1], &p->ends[j][1]);
        if (rng_below(r, 2) == 0)
            swap(&p->ends[i][0], &p->ends[i][1]);
    }
}

/* Mostly random; also ascending and descending. */
static void choose_order(struct plant *p, struct rng *r)
{
    int kind = rng_below(r, 6);
    if (kind > 1)
        rng_shuffle(r, p->order, p->n);
    for (int i = 0; kind <= 1 && i < p->n; i++)
        p->order[i] = kind == 0 ? i : p->n - 1 - i;
}

/* Low limits leave more gateways alone. */
static int choose_limit(struct rng *r)
{
    static const int often[] = {2, 2, 2, 2, 3, 3, 4, 5};
    int i = rng_below(r, 10);
    return i < 8 ? often[i] : rng_between(r, 2, MAX_LIMIT);
}

/* Links an opened plant. */
static void make(const struct family *f, struct plant *p, struct rng *r)
{
    f->link(p, r);
    if (rng_below(r, 4) > 0)
        rename_gateways(p, r);
    if (f->as_made)
        return;
    if (rng_below(r, 4) > 0)
        shuffle_links(p, r);
    choose_order(p, r);
}

void family_make(const struct family *f, struct plant *p, struct rng *r, int n, int limit)
{
    plant_open(p, n, limit == 0 ? choose_limit(r) : limit);
    make(f, p, r);
}

void family_make_own(const struct family *f, struct plant *p, struct rng *r, int n)
{
    plant_open(p, n, choose_limit(r));
    any_limits(p, r);
    make(f, p, r);
}

void family_largest(struct plant *p, struct rng *r, int hubs, int limit, int each, int m)
{
    plant_open(p, MAX_GATEWAYS, limit);
    for (int v = hubs; v < p->n; v++)
        for (int times = each; times > 0; times--)
            plant_link(p, rng_below(r, hubs), v);
    family_fill(p, r, m);
    rng_shuffle(r, p->order, p->n);
}
