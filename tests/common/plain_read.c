#include <string.h>

#include "plain_work.h"

static void group(struct work *w, int leader, int member)
{
    w->leader[leader] = (uint16_t)leader;
    w->leader[member] = (uint16_t)leader;
}

/*
 * Rules 1 and 2. A gateway is peeled when all that it holds are; left counts those that are not. What is never peeled is on
 * a cycle. Gives how many were peeled.
 */
static int peel(struct work *w, uint8_t *left)
{
    uint16_t *list = w->queue;
    int end = 0;
    for (int v = 0; v < w->n; v++) {
        w->leader[v] = NONE;
        left[v] = (uint8_t)(w->limit[v] - w->room[v]);
        if (left[v] == 0)
            list[end++] = (uint16_t)v;
    }
    for (int i = 0; i < end; i++) {
        int v = list[i], u = w->holder[v];
        if (u == NONE)
            continue;
        if (w->leader[v] != v)
            group(w, u, v);
        if (--left[u] == 0)
            list[end++] = (uint16_t)u;
    }
    return end;
}

static void pair_up(struct work *w, const uint16_t *list, int i, int end)
{
    for (; i + 1 < end; i += 2)
        group(w, list[i], list[i + 1]);
}

/* Rule 3: a cycle of which nobody leads, from its lowest number on. */
static void group_bare(struct work *w, const uint16_t *list, int length)
{
    int i = 0;
    if (length % 2 == 1) {
        group(w, list[1], list[0]);
        group(w, list[1], list[2]);
        i = 3;
    }
    pair_up(w, list, i, length);
}

/* Rule 4: a cycle from one that leads on. */
static void group_runs(struct work *w, const uint16_t *list, int length)
{
    for (int start = 1, end = 1; start < length; start = ++end) {
        while (end < length && w->leader[list[end]] == NONE)
            end++;
        if ((end - start) % 2 == 1) {
            group(w, list[start - 1], list[start]);
            start++;
        }
        pair_up(w, list, start, end);
    }
}

/* The cycle from v on along the arcs; gives its length. */
static int follow(const uint16_t *after, int v, uint16_t *list)
{
    int length = 0, x = v;
    do {
        list[length++] = (uint16_t)x;
        x = after[x];
    } while (x != v);
    return length;
}

/* Rules 3 and 4. Those not peeled have one left: the next on the cycle. */
static void group_cycles(struct work *w, uint8_t *left)
{
    uint16_t after[MOST], *list = w->queue;
    for (int v = 0; v < w->n; v++)
        if (left[v] != 0)
            after[w->holder[v]] = (uint16_t)v;
    for (int v = 0; v < w->n; v++) {
        if (left[v] == 0)
            continue;
        int length = follow(after, v, list), i = 0;
        for (int j = 0; j < length; j++)
            left[list[j]] = 0;
        while (i < length && w->leader[list[i]] == NONE)
            i++;
        if (i == length) {
            group_bare(w, list, length);
        } else {
            follow(after, list[i], list);
            group_runs(w, list, length);
        }
    }
}

/* Rule 5: in a group of two the one earlier in the order leads. */
static void turn_pairs(struct work *w)
{
    uint8_t members[MOST];
    memset(members, 0, (size_t)w->n);
    for (int v = 0; v < w->n; v++)
        if (w->leader[v] != NONE && w->leader[v] != v)
            members[w->leader[v]]++;
    for (int v = 0; v < w->n; v++) {
        int u = w->leader[v];
        if (u != NONE && members[u] == 1 && w->at[v] < w->at[u])
            group(w, v, u);
    }
}

void plain_read(struct work *w)
{
    uint8_t left[MOST];
    if (peel(w, left) < w->n)
        group_cycles(w, left);
    turn_pairs(w);
}
