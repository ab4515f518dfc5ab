#include "bad_search.h"

#include <stdio.h>
#include <stdlib.h>

#include "bad_plants.h"
#include "timing.h"

enum { PLANTS_MAX = 100000, AGAIN = 30, SHOWN = 10 };

struct tried {
    int number; /* of the plant */
    struct timing timing;
};

static struct plant plant;
static struct tried tried[PLANTS_MAX];

static double ratio(const struct tried *t)
{
    return t->timing.call / t->timing.plain;
}

static int falling(double a, double b)
{
    return (a < b) - (a > b);
}

static int by_ratio(const void *a, const void *b)
{
    return falling(ratio(a), ratio(b));
}

static int by_call(const void *a, const void *b)
{
    const struct tried *x = a, *y = b;
    return falling(x->timing.call, y->timing.call);
}

static bool look(int n, struct tried *t, bool with_care)
{
    bad_make(&plant, n, t->number);
    bool same = timing_two(&plant, with_care, &t->timing);
    if (!same)
        printf("plant %d: the call and the plain program differ\n", t->number);
    return same;
}

static void print_one(int n, const struct tried *t)
{
    const char *shape = bad_make(&plant, n, t->number);
    printf("%8d %-10s %8d %6d %3d %8d %6d %7ld %9.4f %9.4f %7.2f\n", t->number, shape, plant.n, plant.m, plant.limit,
           plant.version, t->timing.alone, t->timing.moved, 1e3 * t->timing.call, 1e3 * t->timing.plain, ratio(t));
}

/* The worst by that measure, timed again, since a first look is now and then much too long. */
static bool show_worst(const char *words, int n, int count, int (*measure)(const void *, const void *))
{
    static struct tried worst[AGAIN];
    int again = count < AGAIN ? count : AGAIN;
    qsort(tried, (size_t)count, sizeof tried[0], measure);
    for (int i = 0; i < again; i++) {
        worst[i] = tried[i];
        if (!look(n, &worst[i], true))
            return false;
    }
    qsort(worst, (size_t)again, sizeof worst[0], measure);
    printf("\n%s\n%8s %-10s %8s %6s %3s %8s %6s %7s %9s %9s %7s\n", words, "plant", "shape", "gateways", "links", "T",
           "version", "alone", "moved", "call ms", "plain ms", "ratio");
    for (int i = 0; i < again && i < SHOWN; i++)
        print_one(n, &worst[i]);
    return true;
}

bool bad_search(int n, int first, int count)
{
    if (count > PLANTS_MAX)
        count = PLANTS_MAX;
    for (int i = 0; i < count; i++) {
        tried[i].number = first + i;
        if (!look(n, &tried[i], false))
            return false;
    }
    printf("\n%d random plants of %d gateways, from number %d on: the same bytes\n", count, n, first);
    return show_worst("the worst by call to plain program", n, count, by_ratio) &&
           show_worst("the worst by the call's time", n, count, by_call);
}
