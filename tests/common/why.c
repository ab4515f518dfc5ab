#include "why.h"

#include <string.h>

#include "placing.h"

size_t why_size(const uint8_t *out)
{
    return 4 + 2 * (size_t)get_number(out) + 2 * (size_t)get_number(out + 2);
}

bool why_read(struct why *w, int n, const uint8_t *out)
{
    w->a = get_number(out);
    w->b = get_number(out + 2);
    if (w->a > n || w->b > n)
        return false;
    out += 4;
    for (int i = 0; i < w->a; i++, out += 2)
        w->first[i] = get_number(out);
    for (int i = 0; i < w->b; i++, out += 2)
        w->second[i] = get_number(out);
    return true;
}

/* Lists those that are marked, ascending; how many. */
static int list_marked(int n, const int *marked, int *list)
{
    int count = 0;
    for (int v = 0; v < n; v++)
        if (marked[v])
            list[count++] = v;
    return count;
}

void why_expect(const struct plant *p, const int *holder, int v, struct why *w)
{
    int queued[MAX_GATEWAYS], seen[MAX_GATEWAYS];
    placing_walk(p, holder, v, queued, seen);
    w->a = list_marked(p->n, queued, w->first);
    w->b = list_marked(p->n, seen, w->second);
}

bool why_same(const struct why *w, const struct why *x)
{
    return w->a == x->a && w->b == x->b && memcmp(w->first, x->first, (size_t)w->a * sizeof w->first[0]) == 0
        && memcmp(w->second, x->second, (size_t)w->b * sizeof w->second[0]) == 0;
}
