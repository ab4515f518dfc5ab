/*
 * Small plants whole: check_groups with every leader list and every choke list. For plants of five a list that is no packing
 * has three choke lists only.
 */
#include "families.h"
#include "judge_all_lists.h"
#include "tally.h"

static struct plant plant;

static void every_graph(int n, int limit)
{
    for (int bits = 0; bits < 1 << (n * (n - 1) / 2); bits++) {
        family_graph(&plant, n, limit, bits);
        judge_all_lists(&plant, "graph", bits, false);
    }
}

/* The graphs of four, one of each shape; the bits are the links 0-1, 0-2, 0-3, 1-2, 1-3, 2-3. */
static void graphs_of_four(void)
{
    static const int shapes[] = {0, 1, 3, 33, 7, 11, 13, 15, 51, 31, 63};
    for (int i = 0; i < 11; i++) {
        family_graph(&plant, 4, 2, shapes[i]);
        judge_all_lists(&plant, "a graph of four", shapes[i], false);
    }
    family_graph(&plant, 4, 3, 7);
    judge_all_lists(&plant, "a star of three, T = 3", 7, false);
}

static void plants_of_five(struct rng *r)
{
    static const char *const names[] = {"star", "ring", "tree", "hubs", "sparse", "complete bipartite", "dense"};
    plant_fill(&plant, 5, 2, 4, (const int[][2]){{0, 2}, {0, 3}, {0, 4}, {1, 2}}, (const int[]){2, 3, 4, 0, 1});
    judge_all_lists(&plant, "the listing's plant", 0, true);
    for (int i = 0; i < 14; i++) {
        family_make(family_named(names[i % 7]), &plant, r, 5, 2 + i / 7);
        judge_all_lists(&plant, names[i % 7], i, true);
    }
}

int main(void)
{
    struct rng r = {26};
    for (int n = 0; n <= 3; n++)
        for (int limit = 2; limit <= 16; limit += 7)
            every_graph(n, limit);
    graphs_of_four();
    plants_of_five(&r);
    return tally_end();
}
