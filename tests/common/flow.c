#include "flow.h"

#include "placing.h"

/*
 * Each gateway v is split into v1 and v2. Arcs: from the source to each v1, with room for v's limit; from u1 to
 * v2 and from v1 to u2 for each link u-v; from v2 to the sink, with room for one. A unit of flow along
 * u1-v2 is 000's arc from u to v. Only the first k of the order have their arc to the sink, so that the
 * value counts no other gateway; by 000's Theorem 3 it is the most of them that a packing can cover.
 * The maximum flow is found by blocking flows over levels (Dinic).
 */

enum {
    SOURCE = 0,
    SINK = 1,
    MAX_NODES = 2 + 2 * MAX_GATEWAYS,
    MAX_ARCS = 2 * (2 * MAX_GATEWAYS + 2 * MAX_LINKS),
    NO_ARC = -1,
    UNBOUNDED = 1 << 20
};

/* Arc i runs back along arc i ^ 1; room is what can still be sent. */
struct arc {
    int to;
    int room;
    int next; /* the next arc out of the same node */
};

struct network {
    int nodes;
    int arcs;
    int first[MAX_NODES];
    struct arc arc[MAX_ARCS];
    int level[MAX_NODES];
    int untried[MAX_NODES]; /* the first arc that the present blocking flow has not used up */
};

static int giving(int v)
{
    return 2 + 2 * v;
}

static int taking(int v)
{
    return 3 + 2 * v;
}

static void add_half(struct network *g, int from, int to, int room)
{
    struct arc *a = &g->arc[g->arcs];
    a->to = to;
    a->room = room;
    a->next = g->first[from];
    g->first[from] = g->arcs++;
}

static void add_arc(struct network *g, int from, int to, int room)
{
    add_half(g, from, to, room);
    add_half(g, to, from, 0);
}

static void build(struct network *g, const struct plant *p, int k)
{
    g->nodes = 2 + 2 * p->n;
    g->arcs = 0;
    for (int x = 0; x < g->nodes; x++)
        g->first[x] = NO_ARC;
    for (int v = 0; v < p->n; v++)
        add_arc(g, SOURCE, giving(v), p->limits[v]);
    for (int i = 0; i < p->m; i++) {
        int a = p->ends[i][0], b = p->ends[i][1];
        add_arc(g, giving(a), taking(b), UNBOUNDED);
        add_arc(g, giving(b), taking(a), UNBOUNDED);
    }
    for (int i = 0; i < k; i++)
        add_arc(g, taking(p->order[i]), SINK, 1);
}

/* Numbers each node by its distance from the source; false where the sink is out of reach. */
static bool set_levels(struct network *g)
{
    int list[MAX_NODES];
    int head = 0, tail = 0;

    for (int x = 0; x < g->nodes; x++)
        g->level[x] = -1;
    g->level[SOURCE] = 0;
    list[tail++] = SOURCE;
    while (head < tail) {
        int x = list[head++];
        for (int i = g->first[x]; i != NO_ARC; i = g->arc[i].next) {
            int y = g->arc[i].to;
            if (g->arc[i].room > 0 && g->level[y] < 0) {
                g->level[y] = g->level[x] + 1;
                list[tail++] = y;
            }
        }
    }
    return g->level[SINK] >= 0;
}

/* Sends up to amount from x to the sink along arcs that rise by one level; returns what was sent. */
static int push(struct network *g, int x, int amount)
{
    int sent = 0;

    if (x == SINK)
        return amount;
    for (; g->untried[x] != NO_ARC; g->untried[x] = g->arc[g->untried[x]].next) {
        struct arc *a = &g->arc[g->untried[x]];
        if (a->room == 0 || g->level[a->to] != g->level[x] + 1)
            continue;
        int part = push(g, a->to, a->room < amount - sent ? a->room : amount - sent);
        a->room -= part;
        g->arc[g->untried[x] ^ 1].room += part;
        sent += part;
        if (sent == amount)
            break;
    }
    return sent;
}

static int solve(struct network *g, const struct plant *p, int k)
{
    int value = 0;

    build(g, p, k);
    while (set_levels(g)) {
        for (int x = 0; x < g->nodes; x++)
            g->untried[x] = g->first[x];
        value += push(g, SOURCE, UNBOUNDED);
    }
    return value;
}

int flow_most(const struct plant *p, int k)
{
    static struct network g;
    return solve(&g, p, k);
}

/* What flows along an arc can be sent back. The arcs from giver to taker, and each behind it the arc back, follow the source's. */
int flow_holders(const struct plant *p, int *holder)
{
    static struct network g;
    int most = solve(&g, p, p->n);
    for (int v = 0; v < p->n; v++)
        holder[v] = NOBODY;
    for (int i = 2 * p->n; i < 2 * p->n + 4 * p->m; i += 2)
        if (g.arc[i ^ 1].room > 0)
            holder[(g.arc[i].to - taking(0)) / 2] = (g.arc[i ^ 1].to - giving(0)) / 2;
    return most;
}

void flow_every(const struct plant *p, int *most)
{
    for (int k = 0; k <= p->n; k++)
        most[k] = flow_most(p, k);
}
