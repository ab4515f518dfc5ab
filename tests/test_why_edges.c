/*
 * Why a gateway is alone, on plants where the two sets are known beforehand: small ones by hand, stars of every T, long
 * chains; and the answer's bytes.
 */
#include <string.h>

#include "chains.h"
#include "judge_why.h"
#include "lent.h"
#include "plan_groups.h"
#include "tally.h"

enum { MOST = 8, LEFT = 2, MORE = 8 };

/* One that is alone, and its sets. */
struct left {
    int gateway;
    int a, first[MOST];
    int b, second[MOST];
};

struct edge {
    const char *name;
    int n, limit, m;
    int ends[MOST][2];
    int order[MOST];
    int alone;
    struct left left[LEFT];
};

#define STAR {{0, 1}, {0, 2}, {0, 3}, {0, 4}}

static const struct edge edges[] = {
    {"no gateway", 0, 2, 0, {{0}}, {0}, 0, {{0}}},
    {"one gateway", 1, 2, 0, {{0}}, {0}, 1, {{0, 1, {0}, 0, {0}}}},
    {"two without a link", 2, 16, 0, {{0}}, {1, 0}, 2, {{0, 1, {0}, 0, {0}}, {1, 1, {1}, 0, {0}}}},
    {"no link beside two linked", 3, 2, 1, {{2, 0}}, {2, 1, 0}, 1, {{1, 1, {1}, 0, {0}}}},
    {"three at a hub", 4, 2, 3, STAR, {0, 1, 2, 3}, 1, {{3, 3, {1, 2, 3}, 1, {0}}}},
    {"three at a hub that comes last", 4, 2, 3, STAR, {2, 3, 1, 0}, 1, {{1, 3, {1, 2, 3}, 1, {0}}}},
    {"a star of four, T = 3", 5, 3, 4, STAR, {0, 1, 2, 3, 4}, 1, {{4, 4, {1, 2, 3, 4}, 1, {0}}}},
    {"the same from the other end", 5, 3, 4, STAR, {4, 3, 2, 1, 0}, 1, {{1, 4, {1, 2, 3, 4}, 1, {0}}}},
    {"two left at one hub", 5, 2, 4, STAR, {0, 1, 2, 3, 4}, 2, {{3, 3, {1, 2, 3}, 1, {0}}, {4, 3, {1, 2, 4}, 1, {0}}}},
    {"the same in another order", 5, 2, 4, STAR, {4, 1, 3, 0, 2}, 2,
        {{2, 3, {1, 2, 4}, 1, {0}}, {3, 3, {1, 3, 4}, 1, {0}}}},
    {"two stars", 8, 2, 6, {{0, 1}, {0, 2}, {0, 3}, {7, 4}, {7, 5}, {7, 6}}, {7, 6, 5, 4, 0, 1, 2, 3}, 2,
        {{3, 3, {1, 2, 3}, 1, {0}}, {4, 3, {4, 5, 6}, 1, {7}}}},
    {"one left at both hubs of the other", 8, 2, 7, {{0, 2}, {0, 3}, {0, 4}, {1, 5}, {1, 6}, {1, 7}, {0, 7}},
        {2, 3, 4, 5, 6, 7, 0, 1}, 2, {{4, 3, {2, 3, 4}, 1, {0}}, {7, 5, {2, 3, 5, 6, 7}, 2, {0, 1}}}},
    /* 3 is held by 0 and linked to 1 too: from 6 the walk goes on to 1, from 7 it does not come back to 0 */
    {"a walk from hub to hub, and none back", 8, 2, 7, {{0, 2}, {0, 3}, {1, 4}, {1, 5}, {1, 3}, {0, 6}, {1, 7}},
        {2, 3, 4, 5, 6, 7, 0, 1}, 2, {{6, 5, {2, 3, 4, 5, 6}, 2, {0, 1}}, {7, 3, {4, 5, 7}, 1, {1}}}},
    /* the same links; 7 is placed before 4 and 5, and 5 is left in its place */
    {"the same with another left", 8, 2, 7, {{0, 2}, {0, 3}, {1, 4}, {1, 5}, {1, 3}, {0, 6}, {1, 7}},
        {2, 3, 7, 4, 5, 6, 0, 1}, 2, {{5, 3, {4, 5, 7}, 1, {1}}, {6, 5, {2, 3, 4, 6, 7}, 2, {0, 1}}}},
};

static struct plant plant;
static struct outcome outcome;

/* Whether the call has given just these two sets. */
static bool is_answer(int a, const int *first, int b, const int *second)
{
    static struct why w;
    if (outcome.number != 0 || outcome.fault != NULL || !why_read(&w, plant.n, outcome.out))
        return false;
    return w.a == a && w.b == b && memcmp(w.first, first, (size_t)a * sizeof first[0]) == 0
        && memcmp(w.second, second, (size_t)b * sizeof second[0]) == 0;
}

static void by_hand(struct rng *r)
{
    for (size_t i = 0; i < sizeof edges / sizeof edges[0]; i++) {
        const struct edge *e = &edges[i];
        bool alone[MOST] = {false};
        plant_fill(&plant, e->n, e->limit, e->m, e->ends, e->order);
        for (int j = 0; j < e->alone; j++) {
            const struct left *l = &e->left[j];
            lent_why(&plant, (uint32_t)l->gateway, AT_END, &outcome);
            tally(is_answer(l->a, l->first, l->b, l->second), "%s: why %d is alone", e->name, l->gateway);
            alone[l->gateway] = true;
        }
        for (int v = 0; v < MOST; v++) {
            lent_why(&plant, (uint32_t)v, AT_START, &outcome);
            tally(outcome.fault == NULL && outcome.number == (alone[v] ? 0 : 30), "%s: whether %d is alone", e->name, v);
        }
        judge_gateways(e->name, &plant, r);
    }
}

/* One leaf too many at a hub, for every T and whichever leaf comes last. */
static void stars(void)
{
    for (int limit = 2; limit <= MAX_LIMIT; limit++) {
        int leaves[MAX_LIMIT + 1];
        plant_open(&plant, limit + 2, limit);
        for (int v = 1; v <= limit + 1; v++) {
            plant_link(&plant, 0, v);
            leaves[v - 1] = v;
        }
        for (int last = 1; last <= limit + 1; last++) {
            for (int i = 0; i <= limit; i++)
                plant.order[i] = (last + i) % (limit + 1) + 1;
            plant.order[limit + 1] = 0;
            lent_why(&plant, (uint32_t)last, AT_START, &outcome);
            tally(is_answer(limit + 1, leaves, 1, (const int[]){0}), "T %d: why leaf %d is alone", limit, last);
        }
    }
}

/* A walk through all hubs: the first set is all leaves and the one more, the second all hubs. */
static void check_chain(int hubs, int limit)
{
    int numbers[MAX_GATEWAYS];
    chain_make_full(&plant, hubs, limit);
    for (int v = 0; v < plant.n; v++)
        numbers[v] = v;
    lent_why(&plant, (uint32_t)plant.n - 1, AT_END, &outcome);
    tally(is_answer(hubs * limit + 1, numbers + hubs, hubs, numbers), "a chain of %d hubs, T %d", hubs, limit);
    lent_why(&plant, (uint32_t)plant.n - 2, AT_END, &outcome);
    tally(outcome.number == 30 && outcome.fault == NULL, "a chain of %d hubs, T %d: the last leaf", hubs, limit);
}

static void chains(struct rng *r)
{
    for (int limit = 2; limit <= MAX_LIMIT; limit++) {
        for (int hubs = 1; hubs <= 6; hubs++)
            check_chain(hubs, limit);
        check_chain((MAX_GATEWAYS - 1) / (limit + 1), limit);
    }
    chain_make_full(&plant, 20, 2);
    judge_gateways("a chain of 20 hubs", &plant, r);
}

/* The bytes of an answer, none past them, whatever stands there before. */
static void check_bytes(const char *name, uint32_t gateway, const uint8_t *answer, size_t size)
{
    static uint8_t file[MAX_FILE], out[WHY_ALONE_OUT_MAX + MORE], expected[sizeof out];
    static const uint8_t fills[] = {0x00, 0xFF, 0x5A};
    size_t len = plant_write(&plant, file);
    for (int i = 0; i < 3; i++) {
        memset(expected, fills[i], sizeof expected);
        memcpy(expected, answer, size);
        memset(out, fills[i], sizeof out);
        uint32_t number = why_alone(file, len, gateway, out, sizeof out);
        tally(number == 0 && memcmp(out, expected, sizeof out) == 0, "the bytes of %s over %02x", name, (unsigned)fills[i]);
    }
}

/* Low byte first, the counts before the sets. */
static void bytes(void)
{
    static const uint8_t star[] = {3, 0, 1, 0, 1, 0, 2, 0, 3, 0, 0, 0};
    static uint8_t chain[4 + 2 * 1024];
    plant_fill(&plant, 4, 2, 3, (const int[][2])STAR, (const int[]){0, 1, 2, 3});
    check_bytes("a star", 3, star, sizeof star);
    plant_open(&plant, 1024, 2);
    check_bytes("gateway 258 without a link", 258, (const uint8_t[]){1, 0, 0, 0, 2, 1}, 6);
    chain_make_full(&plant, 341, 2);
    memcpy(chain, (const uint8_t[]){0xAB, 2, 0x55, 1}, 4); /* 683 and 341 */
    for (int i = 0; i < 1024; i++) {
        int v = (341 + i) % 1024;
        chain[4 + 2 * i] = (uint8_t)(v & 255);
        chain[5 + 2 * i] = (uint8_t)(v >> 8);
    }
    check_bytes("a chain of 341 hubs", 1023, chain, sizeof chain);
}

int main(void)
{
    struct rng r = {18};
    by_hand(&r);
    stars();
    chains(&r);
    bytes();
    return tally_end();
}
