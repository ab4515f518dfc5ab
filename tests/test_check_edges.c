/*
 * Lists made by hand, and the number that check_groups gives for each: all ways of being no packing, differences that are
 * off, also by what is lost where numbers are cut, every value of an entry and of a choke byte; and what stands past n.
 */
#include "judge_check.h"
#include "plan_groups.h"
#include "tally.h"

enum { MOST = 8, PAST = 5, A = ALONE };

struct row {
    const char *name;
    int n, limit, m;
    int ends[MOST][2];
    int leader[MOST], choke[MOST];
    int number;
};

/* A star of four round 0 with T = 3, which leaves one alone; the same with a link 1-2, and nobody is. */
#define STAR 5, 3, 4, {{0, 1}, {0, 2}, {0, 3}, {0, 4}}
#define KITE 5, 3, 5, {{0, 1}, {0, 2}, {3, 0}, {4, 0}, {2, 1}}

/* T is 2. */
#define CHAIN 3, 2, 2, {{0, 1}, {1, 2}}
#define TRIANGLE 3, 2, 3, {{0, 1}, {1, 2}, {2, 0}}
#define RING_AND_TWO 6, 2, 4, {{0, 1}, {1, 2}, {2, 3}, {3, 0}}
#define TWO_STARS 8, 2, 6, {{0, 1}, {0, 2}, {0, 3}, {7, 4}, {7, 5}, {7, 6}}

static const struct row rows[] = {
    {"no gateway", 0, 2, 0, {{0}}, {0}, {0}, 0},
    {"one alone", 1, 2, 0, {{0}}, {A}, {0}, 0},
    {"one that leads", 1, 2, 0, {{0}}, {0}, {0}, 31},
    {"one led by the one past it", 1, 2, 0, {{0}}, {1}, {0}, 31},
    {"one in the set", 1, 2, 0, {{0}}, {A}, {1}, 32},
    {"one with a byte of 2", 1, 2, 0, {{0}}, {A}, {2}, 32},
    {"two without a link", 2, 2, 0, {{0}}, {A, A}, {0}, 0},
    {"two without a link in a group", 2, 2, 0, {{0}}, {0, 0}, {0}, 31},
    {"two", 2, 2, 1, {{0, 1}}, {0, 0}, {0}, 0},
    {"two, led by the other", 2, 2, 1, {{0, 1}}, {1, 1}, {0}, 0},
    {"two that both lead", 2, 2, 1, {{0, 1}}, {0, 1}, {0}, 31},
    {"two, each led by the other", 2, 2, 1, {{0, 1}}, {1, 0}, {0}, 31},
    {"two alone", 2, 2, 1, {{0, 1}}, {A, A}, {0}, 32},
    {"two, one alone and led", 2, 2, 1, {{0, 1}}, {A, 0}, {0}, 31},
    {"two, one alone and leading", 2, 2, 1, {{0, 1}}, {0, A}, {0}, 31},

    {"three and two", KITE, {0, 1, 1, 0, 0}, {0}, 0},
    {"three and two, led by the other", KITE, {0, 2, 2, 0, 0}, {0}, 0},
    {"three and two, and a set", KITE, {0, 1, 1, 0, 0}, {0, 1}, 32},
    {"T members, and one alone", KITE, {0, 0, 0, 0, A}, {0}, 32},
    {"all alone", KITE, {A, A, A, A, A}, {0}, 32},
    {"T + 1 members", KITE, {0, 0, 0, 0, 0}, {0}, 31},
    {"a leader of nobody", KITE, {0, 1, 1, 0, 4}, {0}, 31},
    {"a leader of nobody, all others alone", KITE, {0, A, A, A, A}, {0}, 31},
    {"a member that is not linked", KITE, {0, 3, 0, 3, 0}, {0}, 31},
    {"a member that is not linked, turned", KITE, {0, 1, 0, 1, 0}, {0}, 31},
    {"a member of one alone", KITE, {A, 1, 1, 0, A}, {0}, 31},
    {"a member of a member", KITE, {0, 0, 1, 0, 0}, {0}, 31},
    {"members of each other", KITE, {0, 2, 1, 0, 0}, {0}, 31},
    {"the leader has another's number", KITE, {3, 1, 1, 3, 0}, {0}, 31},
    {"the number n", KITE, {0, 1, 1, 0, 5}, {0}, 31},
    {"the number n for all", KITE, {5, 5, 5, 5, 5}, {0}, 31},
    {"65534 in place of 65535", STAR, {0, 0, 0, 0, 65534}, {1}, 31},
    {"32768", STAR, {0, 0, 0, 0, 32768}, {1}, 31},
    {"256 in place of 0", STAR, {0, 0, 0, 256, A}, {1}, 31},
    {"255 in place of 65535", STAR, {0, 0, 0, 0, 255}, {1}, 31},
    {"each led by the next", TRIANGLE, {1, 2, 0}, {0}, 31},
    {"three led by one", TRIANGLE, {2, 2, 2}, {0}, 0},

    {"T at the hub", STAR, {0, 0, 0, 0, A}, {1}, 0},
    {"T at the hub, another left", STAR, {0, A, 0, 0, 0}, {1}, 0},
    {"T at the hub and no set", STAR, {0, 0, 0, 0, A}, {0}, 32},
    {"fewer at the hub", STAR, {0, 0, 0, A, A}, {1}, 32},
    {"two, led by a leaf", STAR, {1, 1, A, A, A}, {1}, 32},
    {"the hub and a leaf in the set", STAR, {0, 0, 0, 0, A}, {1, 1}, 32},
    {"a leaf in the set", STAR, {0, 0, 0, 0, A}, {0, 1}, 32},
    {"all in the set", STAR, {0, 0, 0, 0, A}, {1, 1, 1, 1, 1}, 32},
    {"all but the hub in the set", STAR, {0, 0, 0, 0, A}, {0, 1, 1, 1, 1}, 32},
    {"the hub's byte is 2", STAR, {0, 0, 0, 0, A}, {2}, 32},
    {"the hub's byte is 255", STAR, {0, 0, 0, 0, A}, {255}, 32},
    {"the last byte is 2", STAR, {0, 0, 0, 0, A}, {1, 0, 0, 0, 2}, 32},
    {"the last byte is 255", STAR, {0, 0, 0, 0, A}, {1, 0, 0, 0, 255}, 32},
    {"31 before a byte of 2", STAR, {0, 0, 0, 0, 0}, {2}, 31},
    {"31 before a difference", STAR, {0, 0, 0, 0, 4}, {0, 1}, 31},

    {"a chain", CHAIN, {1, 1, 1}, {0}, 0},
    {"a chain, and another set that shows it", CHAIN, {1, 1, 1}, {0, 1}, 0},
    {"a chain, one alone", CHAIN, {0, 0, A}, {0}, 32},
    {"a chain, one alone, and the set", CHAIN, {0, 0, A}, {0, 1}, 32},
    {"a chain, the middle alone", CHAIN, {0, A, 0}, {0}, 31},
    {"two stars", TWO_STARS, {0, 0, 0, A, A, 7, 7, 7}, {1, 0, 0, 0, 0, 0, 0, 1}, 0},
    {"two stars, one less in the set", TWO_STARS, {0, 0, 0, A, A, 7, 7, 7}, {1}, 32},
    {"two stars, none in the set", TWO_STARS, {0, 0, 0, A, A, 7, 7, 7}, {0}, 32},
    {"two stars, one more alone", TWO_STARS, {0, 0, 0, A, A, A, 7, 7}, {1, 0, 0, 0, 0, 0, 0, 1}, 32},
    {"a ring beside two", RING_AND_TWO, {0, 0, 2, 2, A, A}, {0}, 0},
    {"two less than nobody, and two alone", RING_AND_TWO, {0, 0, 2, 2, A, A}, {1, 1}, 32},
    {"nobody, and two alone", RING_AND_TWO, {0, 0, 2, 2, A, A}, {1}, 32},
    {"one of these two in the set", RING_AND_TWO, {0, 0, 2, 2, A, A}, {0, 0, 0, 0, 1}, 32},
};

enum { ROWS = sizeof rows / sizeof rows[0] };

static struct plant plant;
static int leader[MAX_GATEWAYS], set[MAX_GATEWAYS];
static uint8_t file[MAX_FILE];

static void open_row(const struct row *row)
{
    plant_fill(&plant, row->n, row->limit, row->m, row->ends, (const int[]){0, 1, 2, 3, 4, 5, 6, 7});
}

static void by_hand(void)
{
    for (int i = 0; i < ROWS; i++) {
        open_row(&rows[i]);
        judge_number(rows[i].number, &plant, rows[i].leader, rows[i].choke, rows[i].name);
    }
}

/* Longer lists, whatever stands past n: one entry there and one byte, as often as there is room. */
static void check_past(const struct row *row, int entry, int byte)
{
    uint8_t leaders[2 * (MOST + PAST)], choke[MOST + PAST];
    int n = row->n;
    for (int v = 0; v < n + PAST; v++) {
        put_number(leaders + 2 * v, v < n ? row->leader[v] : entry);
        choke[v] = (uint8_t)(v < n ? row->choke[v] : byte);
    }
    struct handed h = {file, plant_write(&plant, file), leaders, 2 * (size_t)(n + PAST), choke, (size_t)(n + PAST)};
    judge_handed_number(row->number, &h, row->name);
    h.leaders_len = 2 * (size_t)n + 1;
    h.choke_len = (size_t)n + 1;
    judge_handed_number(row->number, &h, row->name);
}

static void past_n(void)
{
    static const int entries[] = {0, 1, 3, 4, 5, 7, 256, 65534, A}, bytes[] = {0, 1, 2, 255};
    for (int i = 0; i < ROWS; i++) {
        open_row(&rows[i]);
        for (int j = 0; j < 9; j++)
            for (int k = 0; k < 4; k++)
                check_past(&rows[i], entries[j], bytes[k]);
    }
}

/* So many gateways without a link, all alone, and none in the set. */
static void open_plant(int n, int limit)
{
    plant_open(&plant, n, limit);
    for (int v = 0; v < n; v++) {
        leader[v] = ALONE;
        set[v] = 0;
    }
}

static void expect(int number, const char *name)
{
    judge_number(number, &plant, leader, set, name);
}

/* A hub with one leaf more than it can lead, and each number of members. */
static void members(int limit, int hub)
{
    open_plant(limit + 2, limit);
    for (int v = 0; v < plant.n; v++)
        plant_link(&plant, v, hub);
    leader[hub] = hub;
    set[hub] = 1;
    expect(31, "a hub that leads nobody");
    for (int v = 0, count = 0; v < plant.n; v++) {
        if (v == hub)
            continue;
        leader[v] = hub;
        count++;
        expect(count < limit ? 32 : count == limit ? 0 : 31, "members of a hub");
    }
}

/* A hub that leads far too many, also such numbers of them as are few once they are cut to fewer bits. */
static void many_members(int limit)
{
    open_plant(MAX_GATEWAYS, limit);
    for (int v = 1; v < plant.n; v++)
        plant_link(&plant, 0, v);
    for (int power = 32; power < MAX_GATEWAYS; power *= 2) {
        for (int v = 0; v < plant.n; v++)
            leader[v] = v <= power + 1 ? 0 : ALONE;
        expect(31, "far too many members");
        for (int v = power + 2; v <= power + limit; v++)
            leader[v] = 0;
        expect(31, "far too many members");
    }
}

/* A ring of pairs from 0 on, and others without a link. Only these are alone, and without a set the difference says so. */
static void open_ring(int ring, int others, int limit)
{
    open_plant(ring + others, limit);
    for (int v = 0; v < ring; v++) {
        plant_link(&plant, v, (v + 1) % ring);
        leader[v] = v - v % 2;
    }
    expect(0, "a ring and no set");
}

/*
 * With some of the ring in the set the difference is less by T times their number, here by a power of two: it fits wherever
 * only the bits below that are looked at.
 */
static void off_by_power(int power, int limit, int others)
{
    int size = (1 << power) / limit, ring = size < 4 ? 4 : size;
    if (size == 0 || ring + others > MAX_GATEWAYS)
        return;
    open_ring(ring, others, limit);
    for (int v = 0; v < size; v++)
        set[v] = 1;
    expect(32, "a ring and a set too large");
}

/* A set that grows until it has all: the difference falls to 0 and below. */
static void falling(int limit)
{
    open_ring(8, 6, limit);
    for (int v = 0; v < plant.n; v++) {
        set[v] = 1;
        expect(32, "more and more in the set");
    }
}

/* u leads v and w. All others have no link. */
static void open_three(int n, int u, int v, int w)
{
    open_plant(n, 2);
    plant_link(&plant, u, w);
    plant_link(&plant, v, u);
    leader[u] = leader[v] = leader[w] = u;
}

static uint32_t call(const struct handed *h)
{
    return check_groups(h->file, h->len, h->leaders, h->leaders_len, h->choke, h->choke_len);
}

/* Every value of one entry: v's own, or that of u, whom v and w name. */
static void every_entry(int n, int u, int v, int w)
{
    static uint8_t out[3 * MAX_GATEWAYS];
    open_three(n, u, v, w);
    struct handed h = handed_of(file, plant_write(&plant, file), n, out);
    for (int of_leader = 0; of_leader < 2; of_leader++) {
        int wrong = 0, changed = of_leader ? u : v;
        answer_write(n, leader, set, out);
        for (int e = 0; e <= 65535; e++) {
            put_number(out + 2 * changed, e);
            wrong += call(&h) != (e == u ? 0 : e == ALONE && !of_leader ? 32 : 31);
        }
        tally(wrong == 0, "n %d, entry %d, leader %d: %d values of 65,536 are given another number", n, changed, u, wrong);
    }
}

/* Every value of a choke byte. With u alone in the set the difference is the same. */
static void every_byte(int n, int u, int v, int w)
{
    static uint8_t out[3 * MAX_GATEWAYS];
    const int places[] = {u, v, w};
    open_three(n, u, v, w);
    struct handed h = handed_of(file, plant_write(&plant, file), n, out);
    for (int i = 0; i < 3; i++) {
        int wrong = 0;
        answer_write(n, leader, set, out);
        for (int byte = 0; byte < 256; byte++) {
            out[2 * n + places[i]] = (uint8_t)byte;
            wrong += call(&h) != (byte == 0 || (byte == 1 && i == 0) ? 0 : 32);
        }
        tally(wrong == 0, "n %d, choke byte %d: %d values of 256 are given another number", n, places[i], wrong);
    }
}

/* Numbers that differ in one of their two bytes are not the same, nor are those whose bytes change places. */
static void both_bytes(void)
{
    static const struct {
        int right, wrong;
    } pairs[] = {{258, 513}, {1, 256}, {256, 1}, {2, 258}, {258, 2}, {1023, 255}, {1023, 1022}, {511, 1023}, {770, 515}};
    for (int i = 0; i < 9; i++) {
        open_three(1024, pairs[i].right, 1000, 999);
        expect(0, "a number of two bytes");
        leader[1000] = pairs[i].wrong;
        expect(31, "a number with another byte");
    }
}

int main(void)
{
    by_hand();
    past_n();
    for (int limit = 2; limit <= MAX_LIMIT; limit++) {
        members(limit, 0);
        members(limit, limit / 2);
        members(limit, limit + 1);
        falling(limit);
    }
    many_members(2);
    many_members(MAX_LIMIT);
    for (int power = 1; power <= 14; power++)
        for (int limit = 2; limit <= MAX_LIMIT; limit *= 2)
            for (int others = 0; others <= 3; others += 3)
                off_by_power(power, limit, others);
    every_entry(3, 1, 0, 2);
    every_entry(300, 256, 0, 255);
    every_entry(1024, 1023, 255, 3);
    every_byte(3, 2, 0, 1);
    every_byte(1024, 3, 1023, 512);
    both_bytes();
    return tally_end();
}
