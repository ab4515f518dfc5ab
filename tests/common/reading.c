#include "reading.h"

#include <stdbool.h>

#include "answer.h"
#include "placing.h"

struct reading {
    int n;
    enum habit habit;
    const int *order, *holder;
    bool on_cycle[MAX_GATEWAYS];
    int depth[MAX_GATEWAYS]; /* tree arcs from the root, or from the cycle */
    int *leader;             /* NOBODY where no rule has spoken yet */
};

struct cycle {
    int length;
    int at[MAX_GATEWAYS]; /* along the arcs */
};

/* Whether the way from holder to holder comes back to v. */
static bool comes_back(const struct reading *r, int v)
{
    int u = v;
    for (int step = 0; step < r->n; step++) {
        u = r->holder[u];
        if (u == v)
            return true;
        if (u == NOBODY)
            return false;
    }
    return false;
}

static bool is_tree_arc(const struct reading *r, int v)
{
    return r->holder[v] != NOBODY && !r->on_cycle[v];
}

static int depth_of(const struct reading *r, int v)
{
    int depth = 0;
    while (is_tree_arc(r, v)) {
        v = r->holder[v];
        depth++;
    }
    return depth;
}

static bool leads(const struct reading *r, int v)
{
    return r->leader[v] == v;
}

static void group(struct reading *r, int leader, int member)
{
    r->leader[leader] = leader;
    r->leader[member] = leader;
}

/* Rule 1: from the deepest upwards, a gateway leads those of its children that lead nobody. */
static void rule_1(struct reading *r)
{
    for (int depth = r->n; depth > 0; depth--)
        for (int child = 0; child < r->n; child++)
            if (r->depth[child] == depth && !leads(r, child))
                group(r, r->holder[child], child);
}

/* Rule 2: in a piece that is a tree, a root that leads nobody is alone. */
static void rule_2(struct reading *r)
{
    for (int v = 0; v < r->n; v++)
        if (r->holder[v] == NOBODY && !leads(r, v))
            r->leader[v] = ALONE;
}

static int next_on_cycle(const struct reading *r, int v)
{
    int next = 0;
    while (!(r->on_cycle[next] && r->holder[next] == v))
        next++;
    return next;
}

/* Pairs along the cycle, from place i to before place end. */
static void pair_up(struct reading *r, const struct cycle *c, int i, int end)
{
    for (; i + 1 < end; i += 2)
        group(r, c->at[i], c->at[i + 1]);
}

/* Rule 3: none on the cycle leads; it begins at its lowest number. */
static void rule_3(struct reading *r, const struct cycle *c)
{
    int i = 0;
    if (c->length % 2 == 1 && r->habit == LAST_DROPPED) {
        r->leader[c->at[c->length - 1]] = ALONE;
    } else if (c->length % 2 == 1) {
        group(r, c->at[1], c->at[0]);
        group(r, c->at[1], c->at[2]);
        i = 3;
    }
    pair_up(r, c, i, c->length);
}

/* Rule 4: the cycle begins at one that leads; each run of the others is paired from its start. */
static void rule_4(struct reading *r, const struct cycle *c)
{
    int i = 1;
    while (i < c->length) {
        int end = i;
        while (end < c->length && !leads(r, c->at[end]))
            end++;
        int start = i;
        if ((end - start) % 2 == 1) {
            if (r->habit == FIRST_LEFT_OUT)
                r->leader[c->at[start]] = ALONE;
            else
                group(r, c->at[start - 1], c->at[start]);
            start++;
        }
        pair_up(r, c, start, end);
        i = end + 1;
    }
}

static void walk_cycle(const struct reading *r, int start, struct cycle *c)
{
    int v = start;
    c->length = 0;
    do {
        c->at[c->length++] = v;
        v = next_on_cycle(r, v);
    } while (v != start);
}

/* The first on the cycle that leads, or NOBODY. */
static int first_leader(const struct reading *r, const struct cycle *c)
{
    for (int i = 0; i < c->length; i++)
        if (leads(r, c->at[i]))
            return c->at[i];
    return NOBODY;
}

static void rules_3_and_4(struct reading *r)
{
    static struct cycle c;
    bool done[MAX_GATEWAYS] = {false};

    /* ascending, so that the first met of a cycle is its lowest number */
    for (int v = 0; v < r->n; v++) {
        if (!r->on_cycle[v] || done[v])
            continue;
        walk_cycle(r, v, &c);
        for (int i = 0; i < c.length; i++)
            done[c.at[i]] = true;
        int first = first_leader(r, &c);
        if (first == NOBODY) {
            rule_3(r, &c);
        } else {
            walk_cycle(r, first, &c);
            rule_4(r, &c);
        }
    }
}

/* The only member of v's group, or NOBODY where it has another number of them. */
static int only_member(const struct reading *r, int v)
{
    int member = NOBODY, count = 0;
    for (int w = 0; w < r->n; w++) {
        if (w != v && r->leader[w] == v) {
            member = w;
            count++;
        }
    }
    return count == 1 ? member : NOBODY;
}

/* Whether a is met before b on the way through the order. */
static bool is_earlier(const struct reading *r, int a, int b)
{
    int i = 0;
    while (r->order[i] != a && r->order[i] != b)
        i++;
    return r->order[i] == a;
}

/* Whether the way makes the only member lead in place of the leader. */
static bool changes(const struct reading *r, enum pair_way way, int leader, int member)
{
    switch (way) {
    case EARLIER_LEADS:
        return is_earlier(r, member, leader);
    case LOWER_LEADS:
        return member < leader;
    case HIGHER_LEADS:
        return member > leader;
    case AS_GROUPED:
        break;
    }
    return false;
}

/* Rule 5: in a group of two the one earlier in the order leads. */
static void rule_5(struct reading *r, enum pair_way way)
{
    for (int v = 0; v < r->n; v++) {
        if (!leads(r, v))
            continue;
        int member = only_member(r, v);
        if (member != NOBODY && changes(r, way, v, member))
            group(r, member, v);
    }
}

static void read_by(enum habit habit, enum pair_way way, int n, const int *order, const int *holder, int *leader)
{
    static struct reading r;
    r.n = n;
    r.habit = habit;
    r.order = order;
    r.holder = holder;
    r.leader = leader;
    for (int v = 0; v < n; v++) {
        leader[v] = NOBODY;
        r.on_cycle[v] = comes_back(&r, v);
    }
    for (int v = 0; v < n; v++)
        r.depth[v] = depth_of(&r, v);
    rule_1(&r);
    rule_2(&r);
    rules_3_and_4(&r);
    rule_5(&r, way);
}

void reading_leaders_by(enum pair_way way, int n, const int *order, const int *holder, int *leader)
{
    read_by(NO_HABIT, way, n, order, holder, leader);
}

void reading_leaders_as(enum habit habit, int n, const int *order, const int *holder, int *leader)
{
    read_by(habit, EARLIER_LEADS, n, order, holder, leader);
}

void reading_leaders(int n, const int *order, const int *holder, int *leader)
{
    read_by(NO_HABIT, EARLIER_LEADS, n, order, holder, leader);
}
