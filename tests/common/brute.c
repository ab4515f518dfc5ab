#include "brute.h"

#include "flow.h"
#include "packing.h"

static void count_list(const struct plant *p, const int *leader, int *most)
{
    if (!packing_is(p, leader))
        return;
    for (int k = 0; k <= p->n; k++) {
        int covered = answer_covered(p, leader, k);
        if (covered > most[k])
            most[k] = covered;
    }
}

/* Tries every entry for gateway v and those after it. */
static void try_from(const struct plant *p, int v, int *leader, int *most)
{
    if (v == p->n) {
        count_list(p, leader, most);
        return;
    }
    leader[v] = ALONE;
    try_from(p, v + 1, leader, most);
    for (int u = 0; u < p->n; u++) {
        leader[v] = u;
        try_from(p, v + 1, leader, most);
    }
}

void brute_most(const struct plant *p, int *most)
{
    int leader[MAX_BRUTE];
    for (int k = 0; k <= p->n; k++)
        most[k] = 0;
    try_from(p, 0, leader, most);
}

bool brute_agrees(const struct plant *p)
{
    int most[MAX_BRUTE + 1];
    brute_most(p, most);
    for (int k = 0; k <= p->n; k++)
        if (flow_most(p, k) != most[k])
            return false;
    return true;
}
