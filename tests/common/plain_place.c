#include <string.h>

#include "plain_work.h"

/*
 * Goes on from v until a gateway with a place free is seen, and gives it; NONE where the queue runs out. Those that were
 * seen before it began are passed by.
 */
static int search(struct work *w, int v)
{
    int head = 0, tail = 1, looks = 0, found = NONE;
    w->queue[0] = (uint16_t)v;
    while (head < tail && found == NONE) {
        int x = w->queue[head++];
        for (int s = w->first[x]; s != NONE; s = w->slot[s].next) {
            int u = w->slot[s].to;
            if (w->from[u] != NONE)
                continue;
            w->from[u] = (uint16_t)x;
            w->looked[looks++] = (uint16_t)u;
            if (w->room[u] > 0) {
                found = u;
                break;
            }
            /* all sixteen, which is faster than so many; what is past the end is written over or never read */
            memcpy(w->queue + tail, w->row[u], sizeof w->row[u]);
            tail += w->limit[u];
        }
    }
    w->looks = looks;
    return found;
}

/* u, which has a place free, takes x. */
static void take(struct work *w, int u, int x)
{
    uint16_t *row = w->row[u];
    int i = w->limit[u] - w->room[u]--;
    for (; i > 0 && row[i - 1] > x; i--)
        row[i] = row[i - 1];
    row[i] = (uint16_t)x;
    w->holder[x] = (uint16_t)u;
}

/* u, which has no place free, lets x go and takes y. */
static void exchange(struct work *w, int u, int x, int y)
{
    uint16_t *row = w->row[u];
    int i = 0, end = w->limit[u] - 1;
    while (row[i] != x)
        i++;
    for (; i > 0 && row[i - 1] > y; i--)
        row[i] = row[i - 1];
    for (; i < end && row[i + 1] < y; i++)
        row[i] = row[i + 1];
    row[i] = (uint16_t)y;
    w->holder[y] = (uint16_t)u;
}

/* From u, which has a place free, back to v: each lets go the one that the next has taken. Gives how many moved. */
static uint32_t shift(struct work *w, int u, int v)
{
    int x = w->from[u], old = w->holder[x];
    uint32_t moved = 1;
    take(w, u, x);
    for (; x != v; moved++) {
        int y = w->from[old], older = w->holder[y];
        exchange(w, old, x, y);
        x = y;
        old = older;
    }
    return moved;
}

/* What a search in vain has seen stays seen: no later one finds a place there. */
void plain_place(struct work *w)
{
    size_t bytes = (size_t)w->n * sizeof w->from[0];
    memset(w->from, 0xff, bytes);
    memset(w->holder, 0xff, bytes);
    memcpy(w->room, w->limit, (size_t)w->n);
    w->moved = 0;
    for (int i = 0; i < w->n; i++) {
        int v = w->order[i], u = search(w, v);
        if (u == NONE)
            continue;
        w->moved += shift(w, u, v);
        for (int j = 0; j < w->looks; j++)
            w->from[w->looked[j]] = NONE;
    }
}
