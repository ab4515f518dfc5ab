/*
 * plan_groups_recursive as a program in C makes it: lengths, bounds, NULL, any address, and no memory of earlier calls. That
 * it refuses what plan_groups refuses is tested beside that call.
 */
#include <string.h>

#include "deep.h"
#include "families.h"
#include "judge_short.h"
#include "lent.h"
#include "plan_groups.h"
#include "tally.h"

enum { MORE = 8 };

static struct plant plant;
static struct outcome outcome;
static uint8_t file[MAX_FILE];

static bool is_accepted(void)
{
    return outcome.number == 0 && outcome.fault == NULL;
}

static bool is_as_expected(void)
{
    static struct answer got, expected;
    answer_read(&got, plant.n, outcome.out);
    judge_short_expect(&plant, &expected);
    return is_accepted() && answer_differs(&got, &expected, plant.n) == NULL;
}

/* Number 10 below 3n + 4, the same answer for every length from there on, and nothing past it. */
static void check_lengths(const char *name)
{
    static const size_t more[] = {0, 1, 2, 63, 64, 1000, MAX_OUT - PLAN_GROUPS_OUT_MAX};
    size_t len = plant_write(&plant, file), needed = PLAN_GROUPS_OUT(plant.n);
    for (int side = AT_START; side <= AT_END; side++) {
        for (size_t i = 0; i < sizeof more / sizeof more[0]; i++) {
            lent_call_short(file, len, needed + more[i], side, &outcome);
            tally(is_as_expected(), "%s, %d gateways, %zu bytes more: number %u, %s", name, plant.n, more[i],
                  (unsigned)outcome.number, outcome.fault ? outcome.fault : "the answer");
        }
        for (size_t less = 1; less <= needed; less += 1 + less / 8) {
            lent_call_short(file, len, needed - less, side, &outcome);
            tally(outcome.number == 10 && outcome.fault == NULL, "%s, %d gateways, %zu bytes less: number %u", name, plant.n,
                  less, (unsigned)outcome.number);
        }
    }
}

static void lengths(struct rng *r)
{
    static const int sizes[] = {0, 1, 2, 3, 5, 17, 64, 100};
    for (size_t i = 0; i < sizeof sizes / sizeof sizes[0]; i++) {
        const struct family *f = &families[rng_below(r, family_count)];
        family_make(f, &plant, r, sizes[i], 0);
        check_lengths(f->name);
    }
    deep_make(&plant, deep_most(2), 2, PLACE_FREE);
    check_lengths("the deepest plant");
}

static void no_area(void)
{
    uint8_t out[16];
    memset(out, 7, sizeof out);
    tally(plan_groups_recursive(NULL, 0, out, sizeof out) == 9 && out[0] == 7, "no file and an out area");
    tally(plan_groups_recursive(NULL, 0, NULL, 0) == 9, "no file and no out area");
    plant_open(&plant, 0, 2);
    tally(plan_groups_recursive(file, plant_write(&plant, file), NULL, 0) == 10, "no gateway and no out area");
    plant_open(&plant, 1, 2);
    tally(plan_groups_recursive(file, plant_write(&plant, file), NULL, 0) == 10, "one gateway and no out area");
    plant_open(&plant, 0, 1);
    tally(plan_groups_recursive(file, plant_write(&plant, file), NULL, 0) == 2, "T = 1 and no out area");
}

/* The listing's plant, in memory that cannot be written. */
static void constant_file(void)
{
    enum { COUNT = 5 };
    static const uint8_t constant[] = {'P', 'L', 'T', 1, 0, COUNT, 0, 2, 4, 0, 0, 0, 2, 0, 0, 0, 3, 0,
                                       0, 0, 4, 0, 1, 0, 2, 0, 2, 0, 3, 0, 4, 0, 0, 0, 1, 0};
    static const uint8_t expected[PLAN_GROUPS_OUT(COUNT)] = {0, 0, 2, 0, 2, 0, 0, 0, 0, 0, 0, 0, 0, 0, 0, 6};
    uint8_t out[PLAN_GROUPS_OUT(COUNT)];
    uint32_t number = plan_groups_recursive(constant, sizeof constant, out, sizeof out);
    tally(number == 0 && memcmp(out, expected, sizeof out) == 0, "the listing's plant, byte for byte");
}

/* What was called before leaves no trace: another plant, a refused file, the other search. */
static void repeated(struct rng *r)
{
    static struct outcome first;
    static struct plant other;
    for (int i = 0; i < 50; i++) {
        family_make(&families[i % family_count], &plant, r, rng_between(r, 1, 30), 0);
        family_make(i % 2 == 0 ? &scarce : &families[(i + 5) % family_count], &other, r, rng_between(r, 1, 60), 0);
        lent_plan_short(&plant, AT_START, &first);
        lent_plan_short(&other, AT_END, &outcome);
        lent_call_short(file, 3, 3, AT_END, &outcome);
        lent_plan(&other, AT_END, &outcome);
        lent_plan_short(&plant, AT_END, &outcome);
        tally(is_as_expected() && memcmp(first.out, outcome.out, PLAN_GROUPS_OUT(plant.n)) == 0,
              "the same plant again, %d", i);
    }
}

/* Every address is good: the areas begin at odd and even ones. */
static void alignments(struct rng *r)
{
    enum { COUNT = 32 };
    static uint8_t moved[MAX_FILE + 8], out[PLAN_GROUPS_OUT(COUNT) + 8];
    family_make(family_named("sparse"), &plant, r, COUNT, 2);
    size_t len = plant_write(&plant, file), out_len = PLAN_GROUPS_OUT(COUNT);
    lent_call_short(file, len, out_len, AT_START, &outcome);
    for (int i = 0; i < 8; i++) {
        memcpy(moved + i, file, len);
        uint32_t number = plan_groups_recursive(moved + i, len, out + 7 - i, out_len);
        tally(number == 0 && memcmp(out + 7 - i, outcome.out, out_len) == 0, "areas %d bytes on", i);
    }
}

/* The number moved is these four bytes after the choke set, whatever stands there before, and none past them changes. */
static void check_bytes(const char *name, const uint8_t *moved)
{
    static uint8_t out[PLAN_GROUPS_OUT_MAX + MORE];
    static const uint8_t fills[] = {0x00, 0xFF, 0x5A};
    size_t len = plant_write(&plant, file), lists = 3 * (size_t)plant.n;
    for (int i = 0; i < 3; i++) {
        uint8_t expected[4 + MORE];
        memset(expected, fills[i], sizeof expected);
        memcpy(expected, moved, 4);
        memset(out, fills[i], sizeof out);
        uint32_t number = plan_groups_recursive(file, len, out, sizeof out);
        bool same = number == 0 && memcmp(out + lists, expected, sizeof expected) == 0;
        tally(same, "the bytes of the number moved, %s, over %02x", name, (unsigned)fills[i]);
    }
}

/* Low byte first, up to the third. */
static void bytes(void)
{
    plant_open(&plant, 0, 2);
    check_bytes("no gateway", (const uint8_t[]){0, 0, 0, 0});
    plant_open(&plant, 3, 2);
    check_bytes("no link", (const uint8_t[]){0, 0, 0, 0});
    deep_make(&plant, 84, 2, PLACE_FREE);
    check_bytes("254", (const uint8_t[]){254, 0, 0, 0});
    deep_make(&plant, 85, 2, PLACE_FREE);
    check_bytes("257", (const uint8_t[]){1, 1, 0, 0});
    deep_make(&plant, deep_most(2), 2, PLACE_FREE);
    check_bytes("1,535", (const uint8_t[]){0xFF, 0x05, 0, 0});
    swing_make(&plant, 256, 255);
    check_bytes("131,583", (const uint8_t[]){0xFF, 0x01, 0x02, 0});
}

/* The longest out is just enough for the largest plant, whose file is the longest of version 1. */
static void longest(struct rng *r)
{
    plant_open(&plant, PLAN_GROUPS_GATEWAYS_MAX, 2);
    family_fill(&plant, r, PLAN_GROUPS_LINKS_MAX);
    size_t len = plant_write(&plant, file);
    tally(len == PLAN_GROUPS_FILE_MAX - 2 * PLAN_GROUPS_GATEWAYS_MAX, "the largest plant's file has %zu bytes", len);
    for (int side = AT_START; side <= AT_END; side++) {
        lent_call_short(file, len, PLAN_GROUPS_OUT_MAX, side, &outcome);
        tally(is_as_expected(), "the largest plant and the longest out");
        lent_call_short(file, len, PLAN_GROUPS_OUT_MAX - 1, side, &outcome);
        tally(outcome.number == 10 && outcome.fault == NULL, "the largest plant and one byte less");
    }
}

int main(void)
{
    struct rng r = {34};
    longest(&r);
    lengths(&r);
    no_area();
    constant_file();
    repeated(&r);
    alignments(&r);
    bytes();
    return tally_end();
}
