#include <string.h>

#include "plain_work.h"

static int number(const uint8_t *at)
{
    return at[0] | at[1] << 8;
}

static uint32_t take_header(struct work *w, const uint8_t *file, size_t len)
{
    if (len < 10)
        return 9;
    w->version = number(file + 3);
    w->n = number(file + 5);
    w->common = file[7];
    w->m = number(file + 8);
    if (memcmp(file, "PLT", 3) != 0)
        return 7;
    if (w->version != 1 && w->version != 2)
        return 8;
    if (w->n > MOST)
        return 1;
    if (w->common < 2 || w->common > MOST_PLACES)
        return 2;
    if (w->m > MOST_LINKS)
        return 12;
    return len == 10 + 4 * (size_t)w->m + 2 * (size_t)w->version * (size_t)w->n ? 0 : 9;
}

/* Through the shorter of the two chains. */
static bool is_linked(const struct work *w, int a, int b)
{
    int from = w->degree[a] < w->degree[b] ? a : b, to = a + b - from;
    for (int s = w->first[from]; s != NONE; s = w->slot[s].next)
        if (w->slot[s].to == to)
            return true;
    return false;
}

/* Hangs slot s at the end of v's chain. */
static void hang(struct work *w, int s, int v, int to)
{
    w->slot[s] = (struct slot){(uint16_t)to, NONE};
    if (w->degree[v]++ == 0)
        w->first[v] = (uint16_t)s;
    else
        w->slot[w->last[v]].next = (uint16_t)s;
    w->last[v] = (uint16_t)s;
}

static uint32_t take_links(struct work *w, const uint8_t *at)
{
    memset(w->first, 0xff, (size_t)w->n * sizeof w->first[0]);
    memset(w->degree, 0, (size_t)w->n * sizeof w->degree[0]);
    for (int s = 0; s < 2 * w->m; s += 2, at += 4) {
        int a = number(at), b = number(at + 2);
        if (a >= w->n || b >= w->n)
            return 3;
        if (a == b)
            return 4;
        if (is_linked(w, a, b))
            return 20;
        hang(w, s, a, b);
        hang(w, s + 1, b, a);
    }
    return 0;
}

static uint32_t take_order(struct work *w, const uint8_t *at)
{
    memset(w->at, 0xff, (size_t)w->n * sizeof w->at[0]);
    for (int i = 0; i < w->n; i++, at += 2) {
        int v = number(at);
        if (v >= w->n || w->at[v] != NONE)
            return 6;
        w->order[i] = (uint16_t)v;
        w->at[v] = (uint16_t)i;
    }
    return 0;
}

static int limit_of_kind(int kind, int common)
{
    if (kind < 32)
        return kind == 0 ? common : 2;
    if (kind < 128)
        return 4;
    return kind < 192 ? 8 : 16;
}

static uint32_t take_limits(struct work *w, const uint8_t *at)
{
    if (w->version == 1) {
        memset(w->limit, w->common, (size_t)w->n);
        return 0;
    }
    for (int v = 0; v < w->n; v++, at += 2) {
        if (at[1] == 1 || at[1] > MOST_PLACES)
            return 33;
        w->limit[v] = (uint8_t)(at[1] != 0 ? at[1] : limit_of_kind(at[0], w->common));
    }
    return 0;
}

uint32_t plain_take(struct work *w, const uint8_t *file, size_t len)
{
    uint32_t refusal = take_header(w, file, len);
    if (refusal == 0)
        refusal = take_links(w, file + 10);
    if (refusal == 0)
        refusal = take_order(w, file + 10 + 4 * w->m);
    if (refusal == 0)
        refusal = take_limits(w, file + 10 + 4 * w->m + 2 * w->n);
    return refusal;
}
