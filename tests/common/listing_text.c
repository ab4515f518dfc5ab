#include "listing_text.h"

#include <stdio.h>

static char *put_group(const struct plant *p, const struct answer *a, int u, char *at)
{
    at += sprintf(at, "lead %d:", u);
    for (int v = 0; v < p->n; v++)
        if (v != u && a->leader[v] == u)
            at += sprintf(at, " %d", v);
    at += sprintf(at, "\n");
    return at;
}

static char *put_alone(const struct plant *p, const struct answer *a, char *at)
{
    at += sprintf(at, "alone:");
    for (int v = 0; v < p->n; v++)
        if (a->leader[v] == ALONE)
            at += sprintf(at, " %d", v);
    at += sprintf(at, "\n");
    return at;
}

static char *put_choke(const struct plant *p, const struct answer *a, char *at)
{
    at += sprintf(at, "choke:");
    for (int v = 0; v < p->n; v++)
        if (a->choke[v])
            at += sprintf(at, " %d", v);
    at += sprintf(at, "\n");
    return at;
}

size_t listing_text(const struct plant *p, const struct answer *a, char *text)
{
    char *at = text;
    at += sprintf(at, "gateways %d limit %d covered %d\n", p->n, p->limit, answer_covered(p, a->leader, p->n));
    for (int u = 0; u < p->n; u++)
        if (a->leader[u] == u)
            at = put_group(p, a, u, at);
    at = put_alone(p, a, at);
    at = put_choke(p, a, at);
    return (size_t)(at - text);
}
