#include "why_facts.h"

#include "answer.h"
#include "flow.h"

static bool is_ascending(const int *set, int count, int n)
{
    for (int i = 0; i < count; i++)
        if (set[i] >= n || (i > 0 && set[i] <= set[i - 1]))
            return false;
    return true;
}

/* Of marks that are all false those of the set become true. */
static void mark(const int *set, int count, bool *marked)
{
    for (int i = 0; i < count; i++)
        marked[set[i]] = true;
}

/* Whether all but the gateway are covered; those that the order has from the gateway on must not be among them. */
static bool others_are_kept(const struct plant *p, const int *leader, int gateway, const bool *in_first)
{
    bool before = true;
    for (int i = 0; i < p->n; i++) {
        int v = p->order[i];
        if (v == gateway)
            before = false;
        else if (in_first[v] && (!before || leader[v] == ALONE))
            return false;
    }
    return true;
}

static bool two_are_linked(const struct plant *p, const bool *in_first)
{
    for (int i = 0; i < p->m; i++)
        if (in_first[p->ends[i][0]] && in_first[p->ends[i][1]])
            return true;
    return false;
}

/* Whether the second set is exactly the gateways linked to one of the first. */
static bool are_the_linked(const struct plant *p, const bool *in_first, const bool *in_second)
{
    bool linked[MAX_GATEWAYS] = {false};
    for (int i = 0; i < p->m; i++) {
        int a = p->ends[i][0], b = p->ends[i][1];
        linked[a] = linked[a] || in_first[b];
        linked[b] = linked[b] || in_first[a];
    }
    for (int v = 0; v < p->n; v++)
        if (linked[v] != in_second[v])
            return false;
    return true;
}

static int limits_together(const struct plant *p, const int *set, int count)
{
    int sum = 0;
    for (int i = 0; i < count; i++)
        sum += p->limits[set[i]];
    return sum;
}

const char *why_fault(const struct plant *p, const int *leader, int gateway, const struct why *w)
{
    bool in_first[MAX_GATEWAYS] = {false}, in_second[MAX_GATEWAYS] = {false};
    if (!is_ascending(w->first, w->a, p->n))
        return "the first set is not ascending below n";
    if (!is_ascending(w->second, w->b, p->n))
        return "the second set is not ascending below n";
    mark(w->first, w->a, in_first);
    mark(w->second, w->b, in_second);
    if (!in_first[gateway])
        return "the gateway is not in the first set";
    if (!others_are_kept(p, leader, gateway, in_first))
        return "another of the first set is alone, or later in the order";
    if (two_are_linked(p, in_first))
        return "two of the first set are linked";
    if (!are_the_linked(p, in_first, in_second))
        return "the second set is not exactly those linked to the first";
    if (w->a != limits_together(p, w->second, w->b) + 1)
        return "the first set's size is not the sum of the second's limits and one more";
    return NULL;
}

/* One step from those reached so far, from the first set to the second and back; whether anybody is new. */
static bool reach(const struct plant *p, const int *leader, bool *first, bool *second)
{
    bool more = false;
    for (int i = 0; i < 2 * p->m; i++) {
        int x = p->ends[i / 2][i % 2], u = p->ends[i / 2][1 - i % 2];
        if (first[x] && !second[u])
            second[u] = more = true;
    }
    for (int x = 0; x < p->n; x++)
        if (leader[x] != ALONE && leader[x] != x && second[leader[x]] && !first[x])
            first[x] = more = true;
    return more;
}

bool why_is_smallest(const struct plant *p, const int *leader, int gateway, const struct why *w)
{
    bool first[MAX_GATEWAYS] = {false}, second[MAX_GATEWAYS] = {false};
    int a = 0, b = 0;
    first[gateway] = true;
    while (reach(p, leader, first, second))
        continue;
    for (int v = 0; v < p->n; v++) {
        a += first[v];
        b += second[v];
    }
    return a == w->a && b == w->b; /* all that is reached is in the sets */
}

/* The same plant with the first set at the front of its order. */
static void put_in_front(const struct plant *p, const struct why *w, struct plant *q)
{
    bool in_first[MAX_GATEWAYS] = {false};
    int at = 0;
    *q = *p;
    mark(w->first, w->a, in_first);
    for (int i = 0; i < w->a; i++)
        q->order[at++] = w->first[i];
    for (int v = 0; v < p->n; v++)
        if (!in_first[v])
            q->order[at++] = v;
}

bool why_misses_one(const struct plant *p, const struct why *w)
{
    static struct plant q;
    put_in_front(p, w, &q);
    return flow_most(&q, w->a) == w->a - 1;
}
