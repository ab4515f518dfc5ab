/* why_alone as a program in C calls it: sizes, lengths, bounds, NULL, and no memory of earlier calls. */
#include <limits.h>
#include <string.h>

#include "chains.h"
#include "families.h"
#include "judge_why.h"
#include "lent.h"
#include "plan_groups.h"
#include "tally.h"

enum { MORE = 8, SHIFTS = 8 };

static struct plant plant;
static struct outcome outcome;
static struct why expected;
static uint8_t file[MAX_FILE];
static size_t len;

/* The header's sizes, in numbers of our own. */
static void sizes(void)
{
    int i = 4;
    tally(WHY_ALONE_OUT_MAX == 4100, "the longest out");
    tally(WHY_ALONE_OUT(0) == 4 && WHY_ALONE_OUT(5) == 24, "the out of 0 and of 5 gateways");
    tally(sizeof WHY_ALONE_OUT(i) == sizeof(size_t), "an out's length is a size_t");
    tally(WHY_ALONE_OUT((uint8_t)200) == 804 && WHY_ALONE_OUT(INT_MAX) == 8589934592, "a length is not cut off");
    tally(WHY_ALONE_OUT(i ? 1 + 1 : 0) == 12 && WHY_ALONE_OUT(i | 1) == 24, "any expression is an argument");
    tally(60 / WHY_ALONE_OUT(2) == 5 && WHY_ALONE_OUT(2) * 2 == 24, "a length stands in any expression");
    tally(WHY_ALONE_OUT(i++) == 20 && i == 5, "the argument is taken once");
}

/* Writes the plant's file, and finds the sets of one that is alone; whether there are any. */
static bool prepare(const char *name, int left)
{
    static struct asked q;
    struct rng r = {1};
    len = plant_write(&plant, file);
    const char *fault = judge_ask(&plant, &q);
    if (fault == NULL)
        fault = judge_left(&q, left, &r, &expected);
    tally(fault == NULL, "%s: %s", name, fault);
    return fault == NULL;
}

static bool is_refused(uint32_t number)
{
    return outcome.number == number && outcome.fault == NULL;
}

static bool is_as_expected(void)
{
    static struct why w;
    return is_refused(0) && why_read(&w, plant.n, outcome.out) && why_same(&w, &expected);
}

/* Number 10 below 4n + 4 and the same answer from there on; 30 at any length for one that is not alone. */
static void check_length(const char *name, int left, int covered, size_t out_len)
{
    for (int side = AT_START; side <= AT_END; side++) {
        lent_call_why(file, len, (uint32_t)left, out_len, side, &outcome);
        bool ok = out_len < 4 * (size_t)plant.n + 4 ? is_refused(10) : is_as_expected();
        tally(ok, "%s, an out of %zu bytes: number %u", name, out_len, (unsigned)outcome.number);
        lent_call_why(file, len, (uint32_t)covered, out_len, side, &outcome);
        tally(is_refused(30), "%s, an out of %zu bytes, one that is not alone", name, out_len);
    }
}

static void check_lengths(const char *name, int left, int covered)
{
    static const size_t far[] = {63, 64, 1000, MAX_OUT - WHY_ALONE_OUT_MAX};
    size_t needed = 4 * (size_t)plant.n + 4;
    if (!prepare(name, left))
        return;
    check_length(name, left, covered, 0);
    check_length(name, left, covered, 4 + 2 * (size_t)(expected.a + expected.b)); /* just the answer, and too short */
    for (size_t out_len = needed - MORE; out_len <= needed + MORE; out_len++)
        check_length(name, left, covered, out_len);
    for (size_t i = 0; i < sizeof far / sizeof far[0]; i++)
        check_length(name, left, covered, needed + far[i]);
}

static void lengths(void)
{
    plant_open(&plant, 1, 2);
    check_lengths("one gateway", 0, 1);
    chain_make_full(&plant, 1, 2);
    check_lengths("a star", 3, 0);
    chain_make_full(&plant, 30, 3);
    check_lengths("a chain of 30 hubs", 120, 119);
    chain_make_full(&plant, 341, 2);
    prepare("a chain of 341 hubs", 1023);
    check_length("a chain of 341 hubs", 1023, 0, WHY_ALONE_OUT_MAX - 1);
    check_length("a chain of 341 hubs", 1023, 0, WHY_ALONE_OUT_MAX);
}

/* NULL for areas of no bytes. */
static void no_area(void)
{
    uint8_t out[16];
    memset(out, 7, sizeof out);
    tally(why_alone(NULL, 0, 0, out, sizeof out) == 9 && out[0] == 7, "no file and an out area");
    tally(why_alone(NULL, 0, 65535, NULL, 0) == 9, "no file and no out area");
    plant_open(&plant, 0, 2);
    len = plant_write(&plant, file);
    tally(why_alone(file, len, 0, NULL, 0) == 30, "no gateway and no out area");
    tally(why_alone(file, len, 0, out, sizeof out) == 30 && out[0] == 7, "no gateway and an out area");
    plant_open(&plant, 1, 2);
    len = plant_write(&plant, file);
    tally(why_alone(file, len, 0, NULL, 0) == 10, "one gateway and no out area");
    tally(why_alone(file, len, 1, NULL, 0) == 30, "one past one gateway and no out area");
    plant_open(&plant, 1, 1);
    len = plant_write(&plant, file);
    tally(why_alone(file, len, 1, NULL, 0) == 2, "T = 1, one past one gateway and no out area");
}

/* What was called before leaves no trace, nor does another gateway of the same plant. */
static void repeated(struct rng *r)
{
    static struct plant other;
    for (int i = 0; i < 50; i++) {
        int left = 3 * (1 + i % 10);
        chain_make_full(&plant, 1 + i % 10, 2);
        family_make(&families[i % family_count], &other, r, rng_between(r, 1, 60), 0);
        prepare("a chain", left);
        lent_plan(&other, AT_START, &outcome);
        lent_why(&other, (uint32_t)rng_below(r, other.n), AT_END, &outcome);
        lent_why(&plant, (uint32_t)left - 1, AT_START, &outcome);
        lent_plan_after(&plant, left / 2, AT_END, &outcome);
        lent_call_why(file, 3, 0, 3, AT_END, &outcome);
        lent_why(&plant, (uint32_t)left, AT_END, &outcome);
        tally(is_as_expected(), "the same gateway again, %d", i);
    }
}

/* Every address is good: the areas begin at odd and even ones. */
static void alignments(void)
{
    static uint8_t moved[MAX_FILE + SHIFTS], out[WHY_ALONE_OUT_MAX + SHIFTS];
    chain_make_full(&plant, 10, 2);
    prepare("a chain of 10 hubs", 30);
    size_t out_len = WHY_ALONE_OUT(plant.n);
    lent_call_why(file, len, 30, out_len, AT_START, &outcome);
    for (int i = 0; i < SHIFTS; i++) {
        uint8_t *at = out + SHIFTS - 1 - i;
        memcpy(moved + i, file, len);
        uint32_t number = why_alone(moved + i, len, 30, at, out_len);
        tally(number == 0 && memcmp(at, outcome.out, why_size(outcome.out)) == 0, "areas %d bytes on", i);
    }
}

int main(void)
{
    struct rng r = {20};
    sizes();
    lengths();
    no_area();
    repeated(&r);
    alignments();
    return tally_end();
}
