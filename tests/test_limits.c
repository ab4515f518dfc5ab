/*
 * A gateway's own limit, by its kind and its limit byte, as a star of leaves round it shows: each of the five calls then
 * tells the limit by a number. Every kind, every limit byte, above T and below it.
 */
#include "lent.h"
#include "tally.h"
#include "why.h"

enum { LEAVES = MAX_LIMIT + 1, ALL = LEAVES + 1 };

static struct plant plant;
static struct outcome outcome;
static int the_hub;

/* A hub with more leaves than any limit. It is placed last, and the leaves have another kind, which plays no part. */
static void make_star(int hub, int t, int kind, int limit_byte)
{
    int at = 0;
    the_hub = hub;
    plant_open(&plant, ALL, t);
    for (int v = 0; v < ALL; v++) {
        plant_link(&plant, hub, v);
        plant_set_own(&plant, v, 255 - kind, v % 2 == 0 ? 0 : 9);
        if (v != hub)
            plant.order[at++] = v;
    }
    plant.order[at] = hub;
    plant_set_own(&plant, hub, kind, limit_byte);
}

static bool is_accepted(void)
{
    return outcome.number == 0 && outcome.fault == NULL;
}

/* How many are in groups, by the bytes of the answer. */
static int covered(void)
{
    int count = 0;
    for (int v = 0; v < ALL; v++)
        count += get_number(outcome.out + 2 * v) != ALONE;
    return count;
}

static bool plans_tell(int limit, enum side side)
{
    lent_plan(&plant, side, &outcome);
    bool told = is_accepted() && covered() == 1 + limit && outcome.out[2 * ALL + the_hub] == 1;
    lent_plan_short(&plant, side, &outcome);
    return told && is_accepted() && covered() == 1 + limit && outcome.out[2 * ALL + the_hub] == 1;
}

/* Up to the limit one more leaf is covered with each placing. */
static bool placings_tell(int limit, enum side side)
{
    bool told = true;
    for (int k = 1; k <= ALL && told; k++) {
        lent_plan_after(&plant, k, side, &outcome);
        told = is_accepted() && covered() == 1 + (k < limit ? k : limit);
    }
    return told;
}

/* The last leaf is alone because of the hub and as many leaves as its limit. */
static bool why_tells(int limit, enum side side)
{
    static struct why w;
    lent_why(&plant, (uint32_t)plant.order[LEAVES - 1], side, &outcome);
    return is_accepted() && why_read(&w, ALL, outcome.out) && w.a == limit + 1 && w.b == 1 && w.second[0] == the_hub;
}

/* The hub leads more and more leaves: too few for its place in the choke set, as many as it can, too many. */
static bool lists_tell(int limit, enum side side)
{
    static uint8_t file[MAX_FILE], lists[3 * ALL];
    int leader[ALL], choke[ALL] = {0};
    size_t len = plant_write(&plant, file);
    choke[the_hub] = 1;
    for (int v = 0; v < ALL; v++)
        leader[v] = v == the_hub ? v : ALONE;
    for (int count = 1; count <= LEAVES; count++) {
        leader[plant.order[count - 1]] = the_hub;
        answer_write(ALL, leader, choke, lists);
        struct handed h = handed_of(file, len, ALL, lists);
        lent_check(&h, side, &outcome);
        if (outcome.fault != NULL || outcome.number != (count < limit ? 32 : count == limit ? 0 : 31))
            return false;
    }
    return true;
}

static void expect_limit(int limit)
{
    int kind = plant.kinds[the_hub], byte = plant.limit_bytes[the_hub], t = plant.limit;
    for (int side = AT_START; side <= AT_END; side++) {
        tally(plans_tell(limit, side), "kind %d, limit byte %d, T %d: by the plans not %d", kind, byte, t, limit);
        tally(placings_tell(limit, side), "kind %d, limit byte %d, T %d: by the placings not %d", kind, byte, t, limit);
        tally(why_tells(limit, side), "kind %d, limit byte %d, T %d: by why_alone not %d", kind, byte, t, limit);
        tally(lists_tell(limit, side), "kind %d, limit byte %d, T %d: by check_groups not %d", kind, byte, t, limit);
    }
}

/* What each kind takes where the limit byte is 0; 0 stands for T. */
static const struct {
    int first, last, limit;
} kinds[] = {{0, 0, 0}, {1, 31, 2}, {32, 127, 4}, {128, 191, 8}, {192, 255, 16}};

static void expect_by_kind(int i)
{
    expect_limit(kinds[i].limit == 0 ? plant.limit : kinds[i].limit);
}

/* Each kind with some T, its bounds with each T and the hub at the front, in the middle and at the end. */
static void every_kind(void)
{
    for (int i = 0; i < 5; i++) {
        for (int kind = kinds[i].first; kind <= kinds[i].last; kind++) {
            make_star(kind % ALL, 2 + kind % 15, kind, 0);
            expect_by_kind(i);
        }
        for (int t = 2; t <= MAX_LIMIT; t++) {
            for (int hub = 0; hub < ALL; hub += LEAVES / 2) {
                make_star(hub, t, kinds[i].first, 0);
                expect_by_kind(i);
                make_star(hub, t, kinds[i].last, 0);
                expect_by_kind(i);
            }
        }
    }
}

/* A limit byte of 2 to 16 counts, whatever the kind and T. */
static void every_byte(void)
{
    static const int some[] = {0, 1, 31, 32, 127, 128, 191, 192, 255};
    for (int byte = 2; byte <= MAX_LIMIT; byte++) {
        for (int i = 0; i < 9; i++) {
            make_star((byte + i) % ALL, 2 + (byte * i) % 15, some[i], byte);
            expect_limit(byte);
        }
        make_star(0, 2, 0, byte);
        expect_limit(byte);
        make_star(LEAVES, MAX_LIMIT, 0, byte);
        expect_limit(byte);
    }
}

/* The same star without limits of its own, in version 1. */
static void without_own(void)
{
    for (int t = 2; t <= MAX_LIMIT; t++) {
        make_star(t, t, 255, t == 16 ? 2 : 16);
        plant_forget_own(&plant);
        expect_limit(t);
    }
}

int main(void)
{
    every_kind();
    every_byte();
    without_own();
    return tally_end();
}
