#include "any_limits.h"

/* Kinds at the bounds of what a limit goes by, and some between them. */
static int any_kind(struct rng *r)
{
    static const int bounds[] = {0, 1, 31, 32, 127, 128, 191, 192, 255};
    return rng_below(r, 2) == 0 ? bounds[rng_below(r, 9)] : rng_below(r, 256);
}

/* Few places for many. */
static void set_low(struct plant *p, struct rng *r, int v)
{
    plant_set_own(p, v, any_kind(r), rng_between(r, 2, 3));
}

/* T itself, one less or one more. */
static void set_near(struct plant *p, struct rng *r, int v)
{
    int limit = p->limit + rng_between(r, -1, 1);
    plant_set_own(p, v, any_kind(r), limit < 2 || limit > MAX_LIMIT ? 0 : limit);
}

static void set_by_kind(struct plant *p, struct rng *r, int v)
{
    plant_set_own(p, v, any_kind(r), 0);
}

static void set_any(struct plant *p, struct rng *r, int v)
{
    plant_set_own(p, v, any_kind(r), rng_below(r, 4) == 0 ? 0 : rng_between(r, 2, MAX_LIMIT));
}

/* Mostly nothing is said, and T counts. */
static void set_seldom(struct plant *p, struct rng *r, int v)
{
    if (rng_below(r, 4) == 0)
        set_any(p, r, v);
    else
        plant_set_own(p, v, 0, 0);
}

void any_limits(struct plant *p, struct rng *r)
{
    static void (*const ways[])(struct plant *, struct rng *, int) = {set_low, set_low, set_near, set_near, set_by_kind,
                                                                      set_any, set_seldom};
    int way = rng_below(r, sizeof ways / sizeof ways[0]);
    for (int v = 0; v < p->n; v++)
        ways[way](p, r, v);
    p->version = 2; /* for a plant of no gateways too */
}

void limits_for_all(struct plant *p, struct rng *r, int t)
{
    int limit = p->limit;
    p->limit = t;
    p->version = 2;
    for (int v = 0; v < p->n; v++)
        plant_set_own(p, v, any_kind(r), limit);
}
