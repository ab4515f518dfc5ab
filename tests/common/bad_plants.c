#include "bad_plants.h"

#include <stdlib.h>
#include <string.h>

#include "any_limits.h"
#include "bad_shapes.h"
#include "quick_link.h"

static void swap(int *a, int *b)
{
    int kept = *a;
    *a = *b;
    *b = kept;
}

static void swap_links(struct plant *p, int i, int j)
{
    swap(&p->ends[i][0], &p->ends[j][0]);
    swap(&p->ends[i][1], &p->ends[j][1]);
}

/* As made, the other way round or shuffled. */
static void turn_links(struct plant *p, struct rng *r)
{
    int way = rng_below(r, 4);
    for (int i = 0; way == 2 && i < p->m / 2; i++)
        swap_links(p, i, p->m - 1 - i);
    for (int i = 0; way == 3 && i < p->m; i++)
        swap_links(p, i, rng_below(r, i + 1));
}

static void rename_all(struct plant *p, struct rng *r)
{
    int name[MAX_GATEWAYS];
    rng_shuffle(r, name, p->n);
    for (int i = 0; i < p->m; i++)
        for (int side = 0; side < 2; side++)
            p->ends[i][side] = name[p->ends[i][side]];
    for (int i = 0; i < p->n; i++)
        p->order[i] = name[p->order[i]];
}

static int degree[MAX_GATEWAYS];

static void count_degrees(const struct plant *p)
{
    memset(degree, 0, sizeof degree);
    for (int i = 0; i < p->m; i++)
        for (int side = 0; side < 2; side++)
            degree[p->ends[i][side]]++;
}

static int by_degree(const void *a, const void *b)
{
    int x = *(const int *)a, y = *(const int *)b;
    return degree[x] != degree[y] ? degree[x] - degree[y] : x - y;
}

/* As made, shuffled, or sorted by degree; and each of these the other way round. */
static void turn_order(struct plant *p, struct rng *r)
{
    int way = rng_below(r, 4);
    if (way == 0)
        rng_shuffle(r, p->order, p->n);
    if (way == 1)
        qsort(p->order, (size_t)p->n, sizeof p->order[0], by_degree);
    if (rng_below(r, 3) == 0)
        for (int i = 0; i < p->n / 2; i++)
            swap(&p->order[i], &p->order[p->n - 1 - i]);
}

/* Many for those with more links than most, few for the others; or the other way round. */
static void limits_by_degree(struct plant *p, struct rng *r)
{
    int bound = 2 * p->m / (p->n + 1), high = rng_between(r, 2, MAX_LIMIT), low = rng_between(r, 2, MAX_LIMIT);
    for (int v = 0; v < p->n; v++)
        plant_set_own(p, v, 0, degree[v] > bound ? high : low);
}

/* Half of the plants are of version 1. */
static void turn_limits(struct plant *p, struct rng *r)
{
    int way = rng_below(r, 6);
    if (way == 0)
        any_limits(p, r);
    if (way == 1)
        limits_by_degree(p, r);
    if (way == 2)
        limits_for_all(p, r, rng_between(r, 2, MAX_LIMIT));
}

const char *bad_make(struct plant *p, int n, int number)
{
    static const int often[] = {2, 3, 4, 8, 16};
    struct rng r = {(uint64_t)number};
    const struct bad_shape *shape = &bad_shapes[rng_below(&r, bad_shape_count)];
    quick_open(p, n, rng_below(&r, 2) == 0 ? often[rng_below(&r, 5)] : rng_between(&r, 2, MAX_LIMIT));
    shape->link(p, &r);
    turn_links(p, &r);
    if (rng_below(&r, 2) == 0)
        rename_all(p, &r);
    count_degrees(p);
    turn_order(p, &r);
    turn_limits(p, &r);
    return shape->name;
}
