/* Who leads a group of two: small plants worked out by hand, where everyone is covered and the choke set is empty. */
#include <string.h>

#include "flow.h"
#include "judge.h"
#include "lent.h"
#include "orders.h"
#include "placing.h"
#include "reading.h"
#include "tally.h"

enum { MOST = 8 };

struct shape {
    int n, m;
    int ends[MOST][2];
};

/* Here each gateway is held by the other end of its first link: 0 by 1, every other by the one before it. */
static const struct shape two = {2, 1, {{0, 1}}};
static const struct shape ring_3 = {3, 3, {{0, 1}, {1, 2}, {2, 0}}};
static const struct shape ring_4 = {4, 4, {{0, 1}, {1, 2}, {2, 3}, {3, 0}}};
static const struct shape ring_5 = {5, 5, {{0, 1}, {1, 2}, {2, 3}, {3, 4}, {4, 0}}};
static const struct shape ring_6 = {6, 6, {{0, 1}, {1, 2}, {2, 3}, {3, 4}, {4, 5}, {5, 0}}};

/* The ring of five with the numbers 3 and 4 changed over: 4 holds 3. */
static const struct shape ring_5_over = {5, 5, {{0, 1}, {1, 2}, {2, 4}, {4, 3}, {3, 0}}};

/* When 0 comes last, 1 is full, and so the holders go all the way round; the two last hang from 1. */
static const struct shape round_4 = {6, 6, {{0, 1}, {1, 2}, {2, 3}, {3, 0}, {1, 4}, {4, 5}}};
static const struct shape round_5 = {7, 7, {{0, 1}, {1, 2}, {2, 3}, {3, 4}, {4, 0}, {1, 5}, {5, 6}}};
static const struct shape round_6 = {8, 8, {{0, 1}, {1, 2}, {2, 3}, {3, 4}, {4, 5}, {5, 0}, {1, 6}, {6, 7}}};

/* The same with one more that hangs from 0, which leads it: rule 4. */
static const struct shape hung_4 = {7, 7, {{0, 1}, {1, 2}, {2, 3}, {3, 0}, {1, 4}, {4, 5}, {0, 6}}};
static const struct shape hung_5 = {8, 8, {{0, 1}, {1, 2}, {2, 3}, {3, 4}, {4, 0}, {1, 5}, {5, 6}, {0, 7}}};

/* Links 0-2, 0-3, 0-4, 1-2: only groups 0, 3, 4 and 1, 2 cover all. */
static const struct shape listed = {5, 4, {{0, 2}, {0, 3}, {0, 4}, {1, 2}}};

/* T is 2 everywhere. Each gateway finds a place at once, but for one of the listing's plant. */
static const struct edge {
    const char *name;
    const struct shape *shape;
    int order[MOST];
    int leader[MOST];
    int moved;
} edges[] = {
    {"two linked", &two, {0, 1}, {0, 0}, 2},
    {"two linked, the higher number first", &two, {1, 0}, {1, 1}, 2},
    {"a group of three that any could lead", &ring_3, {0, 1, 2}, {1, 1, 1}, 3},
    {"a group of three led by the last of them", &ring_3, {2, 0, 1}, {1, 1, 1}, 3},
    {"a ring of four", &ring_4, {0, 1, 2, 3}, {0, 0, 2, 2}, 4},
    {"a ring of four from its end", &ring_4, {3, 2, 1, 0}, {1, 1, 3, 3}, 4},
    {"a ring of four from 1 on", &ring_4, {1, 2, 3, 0}, {1, 1, 2, 2}, 4},
    {"a ring of four, from 0 to both sides", &ring_4, {0, 3, 1, 2}, {0, 0, 3, 3}, 4},
    {"a ring of five from its end", &ring_5, {4, 3, 2, 1, 0}, {1, 1, 1, 4, 4}, 5},
    {"a ring of five, 3 before 4", &ring_5, {3, 0, 4, 2, 1}, {1, 1, 1, 3, 3}, 5},
    {"a ring of five, 4 before 3", &ring_5, {4, 2, 3, 0, 1}, {1, 1, 1, 4, 4}, 5},
    {"a ring of six", &ring_6, {0, 1, 2, 3, 4, 5}, {0, 0, 2, 2, 4, 4}, 6},
    {"a ring of six from its end", &ring_6, {5, 4, 3, 2, 1, 0}, {1, 1, 3, 3, 5, 5}, 6},
    {"a ring of six, two groups turned", &ring_6, {1, 0, 2, 3, 5, 4}, {1, 1, 2, 2, 5, 5}, 6},
    {"a ring of six, from 5 and 0 inwards", &ring_6, {5, 0, 4, 1, 3, 2}, {0, 0, 3, 3, 5, 5}, 6},
    {"four round, one turned", &round_4, {4, 5, 1, 2, 3, 0}, {1, 1, 2, 2, 4, 4}, 6},
    {"four round, all turned", &round_4, {5, 4, 1, 3, 2, 0}, {1, 1, 3, 3, 5, 5}, 6},
    {"five round, none turned", &round_5, {5, 6, 1, 2, 3, 4, 0}, {1, 1, 1, 3, 3, 5, 5}, 7},
    {"five round, all turned", &round_5, {6, 5, 1, 2, 4, 3, 0}, {1, 1, 1, 4, 4, 6, 6}, 7},
    {"six round, one turned", &round_6, {6, 7, 1, 2, 3, 4, 5, 0}, {1, 1, 2, 2, 4, 4, 6, 6}, 8},
    {"six round, all turned", &round_6, {7, 6, 1, 3, 2, 5, 4, 0}, {1, 1, 3, 3, 5, 5, 7, 7}, 8},
    {"an odd run, and a three led by the last", &hung_4, {5, 4, 3, 2, 1, 6, 0}, {0, 0, 3, 3, 5, 5, 0}, 7},
    {"an even run", &hung_5, {5, 6, 1, 2, 3, 4, 0, 7}, {0, 1, 1, 3, 3, 5, 5, 0}, 8},
    {"an even run, all turned", &hung_5, {7, 6, 5, 2, 1, 4, 3, 0}, {7, 2, 2, 4, 4, 6, 6, 7}, 8},
    {"the listing's plant", &listed, {2, 3, 4, 0, 1}, {0, 2, 2, 0, 0}, 6},
    {"the listing's plant, 1 before 2", &listed, {4, 1, 2, 3, 0}, {0, 1, 1, 0, 0}, 6},
};

static struct plant plant;
static struct outcome outcome;

static void fill(const struct shape *s, const int *order)
{
    plant_fill(&plant, s->n, 2, s->m, s->ends, order);
}

/* Whether the call has answered with these leaders, no choke set and that number moved. */
static bool is_answer(const int *leader, int moved)
{
    static struct answer a;
    if (outcome.number != 0 || outcome.fault != NULL)
        return false;
    answer_read(&a, plant.n, outcome.out);
    for (int v = 0; v < plant.n; v++)
        if (a.leader[v] != leader[v] || a.choke[v] != 0)
            return false;
    return a.moved == moved;
}

/* Both calls give the leaders, and what they answer on the way there is judged too. */
static void check(const char *name, const int *leader, int moved, struct rng *r)
{
    static struct answer a;
    int most[MOST + 1];
    lent_plan(&plant, AT_END, &outcome);
    tally(is_answer(leader, moved), "%s", name);
    lent_plan_after(&plant, plant.n, AT_START, &outcome);
    tally(is_answer(leader, moved), "%s, with all placed", name);
    flow_every(&plant, most);
    for (int k = 0; k <= plant.n; k++) {
        const char *fault = judge_after(&plant, most, k, r, &a);
        tally(fault == NULL, "%s after %d placings: %s", name, k, fault);
    }
}

static void by_hand(struct rng *r)
{
    for (size_t i = 0; i < sizeof edges / sizeof edges[0]; i++) {
        fill(edges[i].shape, edges[i].order);
        check(edges[i].name, edges[i].leader, edges[i].moved, r);
    }
}

/* Gateways 3 and 4 by rule 1, which names the holder, and by rule 5: it changes the leader or leaves it. */
static void after_rule_1(struct rng *r)
{
    static const struct {
        const struct shape *shape;
        int order[5];
        int by_rule_1, leader;
    } rows[] = {
        {&ring_5, {0, 1, 2, 3, 4}, 3, 3},
        {&ring_5, {0, 4, 1, 3, 2}, 3, 4},
        {&ring_5_over, {2, 4, 0, 1, 3}, 4, 4},
        {&ring_5_over, {3, 0, 1, 2, 4}, 4, 3},
    };
    for (size_t i = 0; i < sizeof rows / sizeof rows[0]; i++) {
        int x = rows[i].leader, holder[MAX_GATEWAYS], leader[MAX_GATEWAYS];
        const int expected[] = {1, 1, 1, x, x};
        fill(rows[i].shape, rows[i].order);
        placing_first(&plant, plant.n, holder);
        reading_leaders_by(AS_GROUPED, plant.n, plant.order, holder, leader);
        tally(leader[3] == rows[i].by_rule_1 && leader[4] == rows[i].by_rule_1, "row %zu: who leads by rule 1", i);
        check("a group of two by rules 1 and 5", expected, 5, r);
    }
}

/*
 * The listing's plant in every order: whichever of 1 and 2 comes first leads the other. 0 has places for two of 2, 3 and 4;
 * the last of them makes 2 move to 1, unless it is 2 itself. The others find a place at once.
 */
static void every_order(struct rng *r)
{
    int count = 0, led_by_2 = 0;
    fill(&listed, (const int[]){0, 1, 2, 3, 4});
    do {
        int i = 0, j = 4;
        while (plant.order[i] != 1 && plant.order[i] != 2)
            i++;
        while (plant.order[j] < 2)
            j--;
        int x = plant.order[i], moved = plant.order[j] == 2 ? 5 : 6;
        const int leader[] = {0, x, x, 0, 0};
        check("the listing's plant in every order", leader, moved, r);
        count++;
        led_by_2 += x == 2;
    } while (order_next(plant.order, plant.n));
    tally(count == 120 && led_by_2 == 60, "%d orders, in %d of them 2 leads", count, led_by_2);
}

/* The listing's plant byte by byte; and with the order 0, 4, 1, 3, 2, where 1 leads. */
static void in_bytes(void)
{
    static uint8_t file[] = {'P', 'L', 'T', 1, 0, 5, 0, 2, 4, 0, 0, 0, 2, 0, 0, 0, 3, 0,
                             0, 0, 4, 0, 1, 0, 2, 0, 2, 0, 3, 0, 4, 0, 0, 0, 1, 0};
    static const uint8_t other[] = {0, 0, 4, 0, 1, 0, 3, 0, 2, 0};
    static const uint8_t led_by_2[] = {0, 0, 2, 0, 2, 0, 0, 0, 0, 0, 0, 0, 0, 0, 0, 6, 0, 0, 0};
    static const uint8_t led_by_1[] = {0, 0, 1, 0, 1, 0, 0, 0, 0, 0, 0, 0, 0, 0, 0, 5, 0, 0, 0};
    lent_call(file, sizeof file, sizeof led_by_2, AT_END, &outcome);
    tally(outcome.number == 0 && memcmp(outcome.out, led_by_2, sizeof led_by_2) == 0, "the listing's bytes");
    memcpy(file + sizeof file - sizeof other, other, sizeof other);
    lent_call(file, sizeof file, sizeof led_by_1, AT_END, &outcome);
    tally(outcome.number == 0 && memcmp(outcome.out, led_by_1, sizeof led_by_1) == 0, "the bytes with another order");
}

int main(void)
{
    struct rng r = {13};
    by_hand(&r);
    after_rule_1(&r);
    every_order(&r);
    in_bytes();
    return tally_end();
}
