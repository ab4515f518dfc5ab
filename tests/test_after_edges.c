/* Small plants after every number of placings, against answers worked out by hand from the papers' rules. */
#include <string.h>

#include "file_rules.h"
#include "flow.h"
#include "judge.h"
#include "lent.h"
#include "packing.h"
#include "tally.h"

enum { MOST = 5 };

/* What the call answers; besides, the choke difference, which before the last placing need not be the number alone. */
struct step {
    int leader[MOST];
    int choke[MOST];
    int moved;
    int difference, alone;
};

struct edge {
    const char *name;
    int n, limit, m;
    int ends[MOST][2];
    int order[MOST];
    struct step after[MOST + 1]; /* by the number of placings */
};

#define A ALONE
#define STAR {{0, 1}, {0, 2}, {0, 3}, {0, 4}}

static const struct edge edges[] = {
    {"no gateway", 0, 2, 0, {{0}}, {0}, {{{0}, {0}, 0, 0, 0}}},
    {"one gateway", 1, 2, 0, {{0}}, {0}, {{{A}, {0}, 0, 1, 1}, {{A}, {0}, 0, 1, 1}}},
    {"two linked", 2, 2, 1, {{0, 1}}, {0, 1},
        {{{A, A}, {1, 1}, 0, -4, 2}, {{0, 0}, {1, 0}, 1, -1, 0}, {{0, 0}, {0, 0}, 2, 0, 0}}},
    {"two linked, the higher number first", 2, 2, 1, {{1, 0}}, {1, 0},
        {{{A, A}, {1, 1}, 0, -4, 2}, {{1, 1}, {0, 1}, 1, -1, 0}, {{1, 1}, {0, 0}, 2, 0, 0}}},
    {"a star of four, T = 3", 5, 3, 4, STAR, {0, 1, 2, 3, 4},
        {{{A, A, A, A, A}, {1, 1, 1, 1, 1}, 0, -15, 5},
         {{0, 0, A, A, A}, {1, 0, 0, 0, 0}, 1, 1, 3},
         {{0, 0, A, A, A}, {1, 0, 0, 0, 0}, 2, 1, 3},
         {{0, 0, 0, A, A}, {1, 0, 0, 0, 0}, 3, 1, 2},
         {{0, 0, 0, 0, A}, {1, 0, 0, 0, 0}, 4, 1, 1},
         {{0, 0, 0, 0, A}, {1, 0, 0, 0, 0}, 4, 1, 1}}},
    /* rule 1 names the holder, the later of the two in the order; by rule 5 the other leads */
    {"a ring of four from its end", 4, 2, 4, {{0, 1}, {1, 2}, {2, 3}, {3, 0}}, {3, 2, 1, 0},
        {{{A, A, A, A}, {1, 1, 1, 1}, 0, -8, 4},
         {{A, A, 3, 3}, {1, 1, 1, 1}, 1, -8, 2},
         {{A, A, 3, 3}, {1, 1, 1, 1}, 2, -8, 2},
         {{1, 1, 3, 3}, {0, 1, 0, 1}, 3, -2, 0},
         {{1, 1, 3, 3}, {0, 0, 0, 0}, 4, 0, 0}}},
    /* the third placing moves 2 from holder 0 to holder 1 */
    {"the listing's plant", 5, 2, 4, {{0, 2}, {0, 3}, {0, 4}, {1, 2}}, {2, 3, 4, 0, 1},
        {{{A, A, A, A, A}, {1, 1, 1, 1, 1}, 0, -10, 5},
         {{2, A, 2, A, A}, {1, 1, 1, 1, 1}, 1, -10, 3},
         {{0, A, 0, 0, A}, {1, 1, 1, 1, 1}, 2, -10, 2},
         {{0, 2, 2, 0, 0}, {0, 0, 1, 1, 1}, 4, -4, 0},
         {{0, 2, 2, 0, 0}, {0, 0, 1, 1, 1}, 5, -4, 0},
         {{0, 2, 2, 0, 0}, {0, 0, 0, 0, 0}, 6, 0, 0}}},
    /* the third and the fourth placing leave 1 and 4 */
    {"left before the last placing", 5, 2, 4, STAR, {3, 2, 1, 4, 0},
        {{{A, A, A, A, A}, {1, 1, 1, 1, 1}, 0, -10, 5},
         {{3, A, A, 3, A}, {1, 1, 1, 1, 1}, 1, -10, 3},
         {{0, A, 0, 0, A}, {1, 1, 1, 1, 1}, 2, -10, 2},
         {{0, A, 0, 0, A}, {1, 1, 1, 1, 1}, 2, -10, 2},
         {{0, A, 0, 0, A}, {1, 1, 1, 1, 1}, 2, -10, 2},
         {{0, A, 0, 0, A}, {1, 0, 0, 0, 0}, 3, 2, 2}}},
    /* 1 is covered as 0's partner before it is placed, and is alone as soon as 0 has another */
    {"covered, and alone later", 4, 2, 3, {{0, 1}, {0, 2}, {0, 3}}, {0, 2, 3, 1},
        {{{A, A, A, A}, {1, 1, 1, 1}, 0, -8, 4},
         {{0, 0, A, A}, {1, 0, 0, 0}, 1, 1, 2},
         {{0, A, 0, A}, {1, 0, 0, 0}, 2, 1, 2},
         {{0, A, 0, 0}, {1, 0, 0, 0}, 3, 1, 1},
         {{0, A, 0, 0}, {1, 0, 0, 0}, 3, 1, 1}}},
};

static struct plant plant;
static struct outcome outcome;

static bool is_answered(int k, const struct step *s)
{
    static struct answer a;
    lent_plan_after(&plant, k, AT_END, &outcome);
    if (outcome.number != 0 || outcome.fault != NULL)
        return false;
    answer_read(&a, plant.n, outcome.out);
    if (a.moved != s->moved)
        return false;
    for (int v = 0; v < plant.n; v++)
        if (a.leader[v] != s->leader[v] || a.choke[v] != s->choke[v])
            return false;
    return packing_difference(&plant, a.choke) == s->difference && packing_alone(&plant, a.leader) == s->alone;
}

/*
 * The star of T = 3 byte by byte, after one placing: gateway 1 is not placed and yet covered; the choke
 * set is gateway 0, and the difference is 4 - 3 while three are alone. One is moved.
 */
static void star_in_bytes(void)
{
    static const uint8_t file[] = {'P', 'L', 'T', 1, 0, 5, 0, 3, 4, 0, 0, 0, 1, 0, 0, 0, 2, 0,
                                   0, 0, 3, 0, 0, 0, 4, 0, 0, 0, 1, 0, 2, 0, 3, 0, 4, 0};
    static const uint8_t answer[] = {0, 0, 0, 0, 255, 255, 255, 255, 255, 255, 1, 0, 0, 0, 0, 1, 0, 0, 0};
    static struct answer a;
    lent_call_after(file, sizeof file, 1, sizeof answer, AT_START, &outcome);
    bool same = outcome.number == 0 && outcome.fault == NULL && memcmp(outcome.out, answer, sizeof answer) == 0;
    tally(same, "the star's bytes after one placing: number %u", (unsigned)outcome.number);
    bool read = file_refusal(file, sizeof file, sizeof answer, &plant) == 0;
    answer_read(&a, plant.n, outcome.out);
    tally(read && packing_difference(&plant, a.choke) == 1, "the star's choke difference after one placing");
    tally(read && packing_alone(&plant, a.leader) == 3, "the number alone in the star after one placing");
}

static void check(const struct edge *e, struct rng *r)
{
    static struct answer a;
    int most[MOST + 1];
    plant_fill(&plant, e->n, e->limit, e->m, e->ends, e->order);
    flow_every(&plant, most);
    for (int k = 0; k <= e->n; k++) {
        tally(is_answered(k, &e->after[k]), "%s after %d placings", e->name, k);
        const char *fault = judge_after(&plant, most, k, r, &a);
        tally(fault == NULL, "%s after %d placings: %s", e->name, k, fault);
    }
}

int main(void)
{
    struct rng r = {12};
    for (size_t i = 0; i < sizeof edges / sizeof edges[0]; i++)
        check(&edges[i], &r);
    star_in_bytes();
    return tally_end();
}
