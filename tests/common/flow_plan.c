#include "flow_plan.h"

#include <string.h>

#include "flow.h"
#include "holders.h"
#include "plain_work.h"

/* The flow's holders as rows and rooms; those that nobody holds begin the queue. Gives how many these are. */
static int gather(struct work *w, const int *holder)
{
    int without = 0;
    memcpy(w->room, w->limit, (size_t)w->n);
    for (int v = 0; v < w->n; v++) {
        int u = holder[v];
        if (u == NOBODY) {
            w->holder[v] = NONE;
            w->queue[without++] = (uint16_t)v;
        } else {
            w->holder[v] = (uint16_t)u;
            w->row[u][w->limit[u] - w->room[u]--] = (uint16_t)v;
        }
    }
    return without;
}

/* Goes on from all that nobody holds, at once. Where the flow is a maximum no place is free there. */
static void see_choke_set(struct work *w, int tail)
{
    memset(w->from, 0xff, (size_t)w->n * sizeof w->from[0]);
    for (int head = 0; head < tail; head++) {
        int x = w->queue[head];
        for (int s = w->first[x]; s != NONE; s = w->slot[s].next) {
            int u = w->slot[s].to;
            if (w->from[u] != NONE)
                continue;
            w->from[u] = (uint16_t)x;
            /* all sixteen, as in plain_place */
            memcpy(w->queue + tail, w->row[u], sizeof w->row[u]);
            tail += w->limit[u] - w->room[u];
        }
    }
}

uint32_t flow_plan(const struct plant *p, const uint8_t *file, size_t len, uint8_t *out, size_t out_len)
{
    struct work w;
    int holder[MAX_GATEWAYS];
    uint32_t refusal = plain_take(&w, file, len);
    if (refusal != 0)
        return refusal;
    if (out_len < 3 * (size_t)w.n + 4)
        return 10;
    flow_holders(p, holder);
    see_choke_set(&w, gather(&w, holder));
    w.moved = 0;
    plain_read(&w);
    plain_write(&w, out);
    return 0;
}
