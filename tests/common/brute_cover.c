#include "brute_cover.h"

#include "packing.h"

enum { MAX_TRIED = 10, MAX_LISTS = 20000 };

struct trial {
    const struct plant *plant;
    bool in_set[MAX_TRIED];
    int leader[MAX_TRIED];
};

static struct trial trial_of(const struct plant *p, const int *set, int count)
{
    struct trial t = {p, {false}, {0}};
    for (int i = 0; i < count; i++)
        t.in_set[set[i]] = true;
    return t;
}

/* The entries that v can have in a packing that covers the set are its own number, a neighbour's and, outside it, ALONE. */
static bool can_have(const struct trial *t, int v, int u)
{
    return u == ALONE ? !t->in_set[v] : u == v || plant_has_link(t->plant, u, v);
}

bool brute_cover_can_try(const struct plant *p, const int *set, int count)
{
    long lists = 1;
    if (p->n > MAX_TRIED)
        return false;
    struct trial t = trial_of(p, set, count);
    for (int v = 0; v < p->n; v++) {
        int entries = can_have(&t, v, ALONE);
        for (int u = 0; u < p->n; u++)
            entries += can_have(&t, v, u);
        lists *= entries;
    }
    return lists <= MAX_LISTS;
}

/* Tries every entry for gateway v and those after it. */
static bool try_from(struct trial *t, int v)
{
    const struct plant *p = t->plant;
    if (v == p->n)
        return packing_is(p, t->leader);
    for (int i = 0; i <= p->n; i++) {
        int u = i < p->n ? i : ALONE;
        if (!can_have(t, v, u))
            continue;
        t->leader[v] = u;
        if (try_from(t, v + 1))
            return true;
    }
    return false;
}

bool brute_covers(const struct plant *p, const int *set, int count)
{
    struct trial t = trial_of(p, set, count);
    return try_from(&t, 0);
}
