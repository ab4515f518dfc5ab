#include "brute_least.h"

#include "placing.h"

enum { MAX_TRIED = 10, MAX_SETS = 5000 };

struct trial {
    const struct plant *plant;
    const int *before;
    int v;
    int holds[MAX_TRIED];
    struct fewest best;
};

bool brute_can_try(const struct plant *p)
{
    long sets = 1;
    for (int v = 0; v < p->n && p->n <= MAX_TRIED; v++) {
        int links = 0;
        for (int i = 0; i < p->m; i++)
            links += p->ends[i][0] == v || p->ends[i][1] == v;
        sets *= links > 0 ? links : 1;
    }
    return p->n <= MAX_TRIED && sets <= MAX_SETS;
}

static void count_set(struct fewest *best, int moved)
{
    if (best->ways == 0 || moved < best->moved)
        *best = (struct fewest){moved, 0};
    best->ways += moved == best->moved;
}

/* Tries every holder for gateway w and those after it; of those before it, moved have another than before. */
static void try_from(struct trial *t, int w, int moved)
{
    if (w == t->plant->n) {
        count_set(&t->best, moved);
        return;
    }
    if (t->before[w] == NOBODY && w != t->v) {
        try_from(t, w + 1, moved);
        return;
    }
    for (int u = 0; u < t->plant->n; u++) {
        if (t->holds[u] == t->plant->limits[u] || !plant_has_link(t->plant, u, w))
            continue;
        t->holds[u]++;
        try_from(t, w + 1, moved + (t->before[w] != u));
        t->holds[u]--;
    }
}

struct fewest brute_least(const struct plant *p, const int *holder, int v)
{
    struct trial t = {p, holder, v, {0}, {0, 0}};
    try_from(&t, 0, 0);
    return t.best;
}
