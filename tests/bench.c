/*
 * How fast plan_groups is: beside a plain program of the same method in C, a plan by network flow and
 * plan_groups_recursive, on the same plants in one run. All begin with the bytes of the file and end with the bytes of their
 * answer. Of the flow its count alone is timed too: how many can be covered, which is no plan. First what the plain program
 * and the flow give is compared with the call; then a table of kinds of plants; then a search for plants on which the call
 * is slow. Nothing is cleared between calls.
 *
 *   bench [GATEWAYS [PLANTS [FIRST]]]
 *
 * GATEWAYS is the largest plant of the table and the size of the random plants: 64 to 1024. The search goes through PLANTS
 * random plants, from number FIRST on.
 */
#include <stdio.h>
#include <stdlib.h>

#include "bad_search.h"
#include "kinds.h"
#include "same_bytes.h"
#include "timing.h"

enum { SMALL_PLANTS = 2000, RANDOM_PLANTS = 3000 };

static struct plant plant;

/* What was timed before, to see how the time grows. */
struct before {
    int size; /* gateways and links; 0 for none */
    struct timing timing;
};

/* The highest ratio met, and on which plant. */
struct highest {
    double ratio;
    const char *name;
    int n, m;
};

enum { SMALLEST = 64 };

static struct highest to_plain, to_flow, to_count;

static void print_head(void)
{
    printf("\n%-10s %8s %6s %3s %6s %7s |", "", "", "", "", "", "");
    printf(" %9s %9s %9s %9s %9s |", "call", "plain C", "flow", "count", "recursive");
    printf(" %8s %8s %9s | %6s %6s %6s | %6s\n", "call to", "call to", "recursive", "growth", "of the", "of the", "ns to");
    printf("%-10s %8s %6s %3s %6s %7s |", "kind", "gateways", "links", "T", "alone", "moved");
    printf(" %9s %9s %9s %9s %9s |", "ms", "ms", "ms", "ms", "ms");
    printf(" %8s %8s %9s | %6s %6s %6s | %6s\n", "plain C", "flow", "to call", "of n+m", "call", "plain", "n+m");
}

static void print_growth(const struct before *b, const struct timing *t)
{
    if (b->size == 0)
        printf(" %6s %6s %6s |", "", "", "");
    else
        printf(" %6.1f %6.1f %6.1f |", (plant.n + plant.m) / (double)b->size, t->call / b->timing.call,
               t->plain / b->timing.plain);
}

static void print_line(const char *name, const struct before *b, const struct timing *t)
{
    printf("%-10s %8d %6d %3d %6d %7ld |", name, plant.n, plant.m, plant.limit, t->alone, t->moved);
    printf(" %9.4f %9.4f %9.4f %9.4f %9.4f |", 1e3 * t->call, 1e3 * t->plain, 1e3 * t->flow, 1e3 * t->count,
           1e3 * t->recursive);
    printf(" %8.2f %8.3f %9.2f |", t->call / t->plain, t->call / t->flow, t->recursive / t->call);
    print_growth(b, t);
    printf(" %6.1f\n", 1e9 * t->call / (plant.n + plant.m));
}

static void keep_highest(struct highest *h, double ratio, const char *name)
{
    if (ratio > h->ratio)
        *h = (struct highest){ratio, name, plant.n, plant.m};
}

static void print_highest(const char *words, const struct highest *h)
{
    printf("%s at most %.3f: %s, %d gateways, %d links\n", words, h->ratio, h->name, h->n, h->m);
}

/* Each plant has random numbers of its own, so that it is the same whichever others are timed. */
static bool show(const struct kind *k, int n, enum links links, struct before *b)
{
    struct rng r = {(uint64_t)n};
    struct timing t;
    k->make(&plant, &r, n, links);
    if (!timing_all(&plant, &t)) {
        printf("%s, %d gateways: the answers differ\n", k->name, n);
        return false;
    }
    print_line(k->name, b, &t);
    keep_highest(&to_plain, t.call / t.plain, k->name);
    keep_highest(&to_flow, t.call / t.flow, k->name);
    keep_highest(&to_count, t.call / t.count, k->name);
    b->size = plant.n + plant.m;
    b->timing = t;
    return true;
}

static bool table(int most)
{
    print_head();
    for (int i = 0; i < kind_count; i++) {
        struct before b = {0};
        for (int n = SMALLEST; n <= most; n *= 4)
            if (!show(&kinds[i], n, USUAL, &b))
                return false;
        if (most >= MAX_GATEWAYS && kinds[i].has_most && !show(&kinds[i], MAX_GATEWAYS, MOST_OF_ALL, &b))
            return false;
    }
    printf("growth: over the line before, of gateways and links together and of the times\n");
    print_highest("call to plain C", &to_plain);
    print_highest("call to flow", &to_flow);
    print_highest("call to the flow's count alone", &to_count);
    return true;
}

static int argument(int count, char **words, int i, int otherwise)
{
    return i < count ? atoi(words[i]) : otherwise;
}

int main(int count, char **words)
{
    int most = argument(count, words, 1, MAX_GATEWAYS);
    if (most < SMALLEST || most > MAX_GATEWAYS) {
        printf("gateways: %d to %d\n", SMALLEST, MAX_GATEWAYS);
        return 2;
    }
    bool same = same_on_small(SMALL_PLANTS) && table(most) &&
                bad_search(most, argument(count, words, 3, 1), argument(count, words, 2, RANDOM_PLANTS));
    return !same;
}
