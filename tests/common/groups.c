#include "groups.h"

#include <string.h>

#include "answer.h"

enum { UNMET = -1 };

/* size[u] is how many have u as their entry: the size of the group that u leads, or 0. */
static void count_sizes(int n, const int *leader, int *size)
{
    for (int v = 0; v < n; v++)
        size[v] = 0;
    for (int v = 0; v < n; v++)
        if (leader[v] != ALONE)
            size[leader[v]]++;
}

/* first[u] is which of u's group stands earliest in the order; UNMET where u leads none. */
static void find_first(const struct plant *p, const int *leader, int *first)
{
    for (int v = 0; v < p->n; v++)
        first[v] = UNMET;
    for (int i = 0; i < p->n; i++) {
        int u = leader[p->order[i]];
        if (u != ALONE && first[u] == UNMET)
            first[u] = p->order[i];
    }
}

bool groups_pairs_in_order(const struct plant *p, const int *leader)
{
    int size[MAX_GATEWAYS], first[MAX_GATEWAYS];
    count_sizes(p->n, leader, size);
    find_first(p, leader, first);
    for (int u = 0; u < p->n; u++)
        if (size[u] == 2 && first[u] != u)
            return false;
    return true;
}

void groups_count_pairs(const struct plant *p, const int *leader, struct pairs_met *met)
{
    int size[MAX_GATEWAYS], first[MAX_GATEWAYS];
    count_sizes(p->n, leader, size);
    find_first(p, leader, first);
    for (int v = 0; v < p->n; v++) {
        int u = leader[v];
        if (u == ALONE || size[u] != 2 || first[u] == v)
            continue;
        if (first[u] < v) /* v is the one later in the order */
            met->lower++;
        else
            met->higher++;
    }
}

bool groups_same_covered(int n, const int *a, const int *b)
{
    for (int v = 0; v < n; v++)
        if ((a[v] == ALONE) != (b[v] == ALONE))
            return false;
    return true;
}

/* Names each group by its lowest number, which is the same whoever leads. */
static void name_groups(int n, const int *leader, int *name)
{
    int lowest[MAX_GATEWAYS] = {0};
    for (int v = n - 1; v >= 0; v--)
        if (leader[v] != ALONE)
            lowest[leader[v]] = v;
    for (int v = 0; v < n; v++)
        name[v] = leader[v] == ALONE ? ALONE : lowest[leader[v]];
}

bool groups_same_sets(int n, const int *a, const int *b)
{
    int names_a[MAX_GATEWAYS], names_b[MAX_GATEWAYS];
    name_groups(n, a, names_a);
    name_groups(n, b, names_b);
    return memcmp(names_a, names_b, (size_t)n * sizeof names_a[0]) == 0;
}

bool groups_same_leaders(int n, const int *a, const int *b)
{
    int size[MAX_GATEWAYS];
    count_sizes(n, a, size);
    for (int v = 0; v < n; v++)
        if (a[v] != ALONE && size[a[v]] > 2 && b[v] != a[v])
            return false;
    return true;
}
