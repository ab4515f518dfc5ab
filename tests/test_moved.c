/*
 * The number moved, on plants where it is known beforehand: small ones by hand, long chains, and lines of hubs where
 * the sum is large; its four bytes; and the room that they need.
 */
#include <stdio.h>
#include <string.h>

#include "brute_least.h"
#include "chains.h"
#include "judge.h"
#include "least.h"
#include "lent.h"
#include "placing.h"
#include "plan_groups.h"
#include "tally.h"

enum { MOST = 12, MORE = 8 };

static struct plant plant;
static struct outcome outcome;

/* Whether the call has answered as the rules say for k placings, and with that number moved. */
static bool is_answer(int k, long moved)
{
    static struct answer a, expected;
    if (outcome.number != 0 || outcome.fault != NULL)
        return false;
    answer_read(&a, plant.n, outcome.out);
    judge_expect(&plant, k, &expected);
    return a.moved == moved && answer_differs(&a, &expected, plant.n) == NULL;
}

static void expect(const char *name, int k, long moved)
{
    lent_plan_after(&plant, k, AT_END, &outcome);
    tally(is_answer(k, moved), "%s, %d gateways, T %d: not %ld moved after %d placings", name, plant.n, plant.limit, moved,
          k);
    if (k < plant.n)
        return;
    lent_plan(&plant, AT_START, &outcome);
    tally(is_answer(k, moved), "%s, %d gateways, T %d: not %ld moved in all", name, plant.n, plant.limit, moved);
}

/* That so many is the least which the k-th placing can move and, in small plants, that there are so many ways. */
static void expect_least(const char *name, int k, int moved, int ways)
{
    int holder[MAX_GATEWAYS], v = plant.order[k - 1];
    placing_first(&plant, k - 1, holder);
    tally(least_moved(&plant, holder, v) == moved, "%s, placing %d: %d is not the flow's least", name, k, moved);
    if (!brute_can_try(&plant))
        return;
    struct fewest f = brute_least(&plant, holder, v);
    tally(f.moved == moved && f.ways == ways, "%s, placing %d: %d is the least, in %d ways", name, k, f.moved, f.ways);
}

/* One placing is looked at: how many it moves and, where that is tried, in how many ways so few can move. T is 2. */
static const struct named {
    const char *name;
    int n, m;
    int ends[MOST][2];
    int order[MOST];
    int moved[MOST]; /* by each placing */
    int looked_at, ways;
} plants[] = {
    {"the listing's plant", 5, 4, {{0, 2}, {0, 3}, {0, 4}, {1, 2}}, {2, 3, 4, 0, 1}, {1, 1, 2, 1, 1}, 3, 1},
    {"either of two moves", 5, 5, {{0, 1}, {0, 2}, {0, 3}, {1, 4}, {2, 4}}, {1, 2, 3, 0, 4}, {1, 1, 2, 1, 1}, 3, 2},
    {"a place free by the second link", 5, 4, {{0, 1}, {0, 2}, {0, 3}, {3, 4}}, {1, 2, 3, 0, 4}, {1, 1, 1, 1, 1}, 3, 1},
    {"four at two hubs, and one left", 7, 10,
        {{0, 2}, {0, 3}, {1, 4}, {1, 5}, {1, 2}, {1, 3}, {0, 4}, {0, 5}, {0, 6}, {1, 6}}, {2, 3, 4, 5, 6, 0, 1},
        {1, 1, 1, 1, 0, 1, 1}, 5, 0},
    {"one that moves twice", 8, 7, {{0, 3}, {1, 3}, {2, 3}, {0, 4}, {0, 5}, {1, 6}, {1, 7}}, {3, 4, 5, 6, 7, 0, 1, 2},
        {1, 1, 2, 1, 2, 1, 1, 2}, 5, 1},
    {"the short way by the first link", 12, 11,
        {{0, 3}, {0, 4}, {1, 5}, {1, 6}, {7, 8}, {7, 9}, {3, 1}, {5, 2}, {8, 10}, {11, 7}, {11, 0}},
        {3, 4, 5, 6, 8, 9, 11, 0, 1, 2, 7, 10}, {1, 1, 1, 1, 1, 1, 2, 1, 1, 1, 1, 1}, 7, 1},
    {"the short way by the second link", 12, 11,
        {{0, 3}, {0, 4}, {1, 5}, {1, 6}, {7, 8}, {7, 9}, {3, 1}, {5, 2}, {8, 10}, {11, 0}, {11, 7}},
        {3, 4, 5, 6, 8, 9, 11, 0, 1, 2, 7, 10}, {1, 1, 1, 1, 1, 1, 2, 1, 1, 1, 1, 1}, 7, 1},
};

static void by_hand(void)
{
    for (size_t i = 0; i < sizeof plants / sizeof plants[0]; i++) {
        const struct named *s = &plants[i];
        long sum = 0;
        plant_fill(&plant, s->n, 2, s->m, s->ends, s->order);
        expect(s->name, 0, 0);
        for (int k = 1; k <= s->n; k++) {
            sum += s->moved[k - 1];
            expect(s->name, k, sum);
        }
        expect_least(s->name, s->looked_at, s->moved[s->looked_at - 1], s->ways);
    }
}

static void check_chain(int hubs, int limit)
{
    char name[40];
    int leaves = hubs * limit;
    snprintf(name, sizeof name, "a chain of %d hubs", hubs);
    chain_make(&plant, hubs, limit);
    expect(name, leaves, leaves);
    expect(name, leaves + 1, leaves + hubs + 1);
    expect(name, plant.n, leaves + 2 * hubs + 1);
    expect_least(name, leaves + 1, hubs + 1, 2);
}

/* Up to the longest with 1,024 gateways: with T = 2 the one more moves 342. */
static void chains(void)
{
    for (int limit = 2; limit <= MAX_LIMIT; limit++) {
        int longest = (MAX_GATEWAYS - 1) / (limit + 1);
        for (int hubs = 1; hubs <= 12; hubs++)
            check_chain(hubs, limit);
        check_chain(longest, limit);
    }
    for (int hubs = 253; hubs <= 257; hubs++)
        check_chain(hubs, 2);
}

/* There are T times half the hubs for each power of two, and what the T at hub 0 and the hubs themselves move. */
static long check_line(int power, int limit)
{
    int hubs = 1 << power, between = limit * (hubs - 1);
    long sum = (long)limit * hubs / 2 * power;
    line_make(&plant, power, limit);
    expect("a line of hubs", between, sum);
    expect("a line of hubs", between + 1, sum + hubs);
    expect("a line of hubs", between + limit, sum + limit * hubs);
    expect("a line of hubs", plant.n, sum + limit * hubs + hubs);
    return sum + limit * hubs + hubs;
}

static void lines(void)
{
    for (int power = 1; power <= 6; power++)
        for (int limit = 2; limit <= MAX_LIMIT && (limit + 1) << power <= MAX_GATEWAYS; limit += 1 + limit / 4)
            check_line(power, limit);
    tally(check_line(8, 3) == 4096, "the sum of 256 hubs");
    tally(check_line(7, 7) == 4160, "the sum of 128 hubs");
}

/* Both calls write these four bytes after the choke set and none past them, whatever stands there before. */
static void check_bytes(const char *name, const uint8_t *moved)
{
    static uint8_t file[MAX_FILE], out[PLAN_GROUPS_OUT_MAX + MORE];
    static const uint8_t fills[] = {0x00, 0xFF, 0x5A};
    size_t len = plant_write(&plant, file), lists = 3 * (size_t)plant.n;
    for (int i = 0; i < 6; i++) {
        uint8_t expected[4 + MORE];
        memset(expected, fills[i / 2], sizeof expected);
        memcpy(expected, moved, 4);
        memset(out, fills[i / 2], sizeof out);
        uint32_t number = i % 2 == 0 ? plan_groups(file, len, out, sizeof out)
                                     : plan_groups_after(file, len, (uint32_t)plant.n, out, sizeof out);
        bool same = number == 0 && memcmp(out + lists, expected, sizeof expected) == 0;
        tally(same, "the bytes of the number moved, %s, call %d, over %02x", name, i % 2, (unsigned)fills[i / 2]);
    }
}

/* Low byte first. */
static void bytes(void)
{
    plant_open(&plant, 0, 2);
    check_bytes("no gateway", (const uint8_t[]){0, 0, 0, 0});
    plant_open(&plant, 3, 2);
    check_bytes("no link", (const uint8_t[]){0, 0, 0, 0});
    plant_fill(&plant, plants[0].n, 2, plants[0].m, plants[0].ends, plants[0].order);
    check_bytes("the listing's plant", (const uint8_t[]){6, 0, 0, 0});
    chain_make(&plant, 63, 2);
    check_bytes("253", (const uint8_t[]){253, 0, 0, 0});
    chain_make(&plant, 64, 2);
    check_bytes("257", (const uint8_t[]){1, 1, 0, 0});
    chain_make(&plant, 341, 2);
    check_bytes("1,365", (const uint8_t[]){0x55, 0x05, 0, 0});
    line_make(&plant, 7, 7);
    check_bytes("4,160", (const uint8_t[]){0x40, 0x10, 0, 0});
}

/* Number 10 below 3n + 4, and the answer from there on. That nothing else is written is watched. */
static void expect_room(const char *call, int k, size_t more, long moved)
{
    bool ok = more < 4 ? outcome.number == 10 && outcome.fault == NULL : is_answer(k, moved);
    tally(ok, "%s, %d gateways, %d placings, 3n + %zu bytes: number %u", call, plant.n, k, more, (unsigned)outcome.number);
}

static void check_room(int k, long moved)
{
    static uint8_t file[MAX_FILE];
    size_t len = plant_write(&plant, file), lists = 3 * (size_t)plant.n;
    for (size_t more = 0; more <= MORE; more++) {
        for (int side = AT_START; side <= AT_END; side++) {
            lent_call_after(file, len, (uint32_t)k, lists + more, side, &outcome);
            expect_room("plan_groups_after", k, more, moved);
            if (k < plant.n)
                continue;
            lent_call(file, len, lists + more, side, &outcome);
            expect_room("plan_groups", k, more, moved);
        }
    }
}

static void room(void)
{
    for (int n = 0; n <= 3; n++) {
        plant_open(&plant, n, 2);
        check_room(0, 0);
        check_room(n, 0);
    }
    chain_make(&plant, 100, 2);
    check_room(0, 0);
    check_room(200, 200);
    check_room(201, 301);
    check_room(plant.n, 401);
    chain_make(&plant, 341, 2);
    check_room(683, 1024);
    check_room(plant.n, 1365);
}

int main(void)
{
    by_hand();
    chains();
    lines();
    bytes();
    room();
    return tally_end();
}
