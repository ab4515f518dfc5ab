/* The calls as a program in C makes them: sizes, lengths, bounds, NULL, and no memory of earlier calls. */
#include <limits.h>
#include <string.h>

#include "families.h"
#include "judge.h"
#include "lent.h"
#include "plan_groups.h"
#include "tally.h"

static struct plant plant;
static struct outcome outcome;
static uint8_t file[MAX_FILE];

static bool is_accepted(void)
{
    return outcome.number == 0 && outcome.fault == NULL;
}

static bool is_as_expected(const struct plant *p, int k)
{
    static struct answer got, expected;
    answer_read(&got, p->n, outcome.out);
    judge_expect(p, k, &expected);
    return answer_differs(&got, &expected, p->n) == NULL;
}

static void check_answer(const struct plant *p, int k, const char *name, size_t more)
{
    bool ok = is_accepted() && is_as_expected(p, k);
    tally(ok, "%s, %d of %d gateways, %zu bytes more: number %u, %s", name, k, p->n, more, (unsigned)outcome.number,
          outcome.fault ? outcome.fault : "the answer");
}

/* An out of any length from 3n + 4 on: the same answer, and nothing past it. */
static void check_lengths(const struct plant *p, const char *name, struct rng *r)
{
    static const size_t more[] = {0, 1, 2, 63, 64, 1000, MAX_OUT - PLAN_GROUPS_OUT_MAX};
    size_t len = plant_write(p, file);
    for (size_t i = 0; i < sizeof more / sizeof more[0]; i++) {
        size_t out_len = PLAN_GROUPS_OUT(p->n) + more[i];
        for (int side = AT_START; side <= AT_END; side++) {
            int k = rng_between(r, 0, p->n);
            lent_call(file, len, out_len, side, &outcome);
            check_answer(p, p->n, name, more[i]);
            lent_call_after(file, len, (uint32_t)k, out_len, side, &outcome);
            check_answer(p, k, name, more[i]);
        }
    }
}

static void lengths(struct rng *r)
{
    static const int sizes[] = {0, 1, 2, 3, 5, 17, 64, 100};
    for (size_t i = 0; i < sizeof sizes / sizeof sizes[0]; i++) {
        const struct family *f = &families[rng_below(r, family_count)];
        family_make(f, &plant, r, sizes[i], 0);
        check_lengths(&plant, f->name, r);
    }
}

static void no_area(void)
{
    uint8_t out[16];
    memset(out, 7, sizeof out);
    tally(plan_groups(NULL, 0, out, sizeof out) == 9 && out[0] == 7, "no file and an out area");
    tally(plan_groups(NULL, 0, NULL, 0) == 9, "no file and no out area");
    plant_open(&plant, 0, 2);
    tally(plan_groups(file, plant_write(&plant, file), NULL, 0) == 10, "no gateway and no out area");
    plant_open(&plant, 1, 2);
    tally(plan_groups(file, plant_write(&plant, file), NULL, 0) == 10, "one gateway and no out area");
    plant_open(&plant, 0, 1);
    tally(plan_groups(file, plant_write(&plant, file), NULL, 0) == 2, "T = 1 and no out area");
}

static void no_area_after(void)
{
    uint8_t out[16];
    memset(out, 7, sizeof out);
    tally(plan_groups_after(NULL, 0, 0, out, sizeof out) == 9 && out[0] == 7, "no file, 0 placings and an out area");
    tally(plan_groups_after(NULL, 0, 1, NULL, 0) == 9, "no file, one placing and no out area");
    plant_open(&plant, 0, 2);
    size_t len = plant_write(&plant, file);
    tally(plan_groups_after(file, len, 0, NULL, 0) == 10, "no gateway, 0 placings and no out area");
    tally(plan_groups_after(file, len, 1, NULL, 0) == 24, "no gateway, one placing and no out area");
    plant_open(&plant, 1, 2);
    len = plant_write(&plant, file);
    tally(plan_groups_after(file, len, 1, NULL, 0) == 10, "one gateway, one placing and no out area");
    tally(plan_groups_after(file, len, 2, NULL, 0) == 24, "one gateway, two placings and no out area");
}

/* What was called before leaves no trace, nor does the same plant after other placings. */
static void repeated(struct rng *r)
{
    static struct outcome first, first_after;
    static struct plant other;
    for (int i = 0; i < 50; i++) {
        family_make(&families[i % family_count], &plant, r, rng_between(r, 1, 30), 0);
        family_make(&families[(i + 5) % family_count], &other, r, rng_between(r, 1, 60), 0);
        int k = rng_below(r, plant.n);
        lent_plan(&plant, AT_START, &first);
        lent_plan_after(&plant, k, AT_START, &first_after);
        lent_plan(&other, AT_END, &outcome);
        lent_call(file, 3, 3, AT_END, &outcome);
        lent_plan(&plant, AT_END, &outcome);
        tally(is_accepted() && memcmp(first.out, outcome.out, PLAN_GROUPS_OUT(plant.n)) == 0,
              "the same plant again, %d", i);
        lent_plan_after(&other, other.n / 2, AT_END, &outcome);
        lent_plan_after(&plant, k + 1, AT_END, &outcome);
        lent_plan_after(&plant, k, AT_END, &outcome);
        tally(is_accepted() && memcmp(first_after.out, outcome.out, PLAN_GROUPS_OUT(plant.n)) == 0,
              "the same plant after %d placings again, %d", k, i);
    }
}

/* Every address is good: the areas begin at odd and even ones. */
static void alignments(struct rng *r)
{
    enum { COUNT = 32, PLACED = 20 };
    static uint8_t moved[MAX_FILE + 8], out[PLAN_GROUPS_OUT(COUNT) + 8];
    static struct outcome after;
    family_make(family_named("sparse"), &plant, r, COUNT, 2);
    size_t len = plant_write(&plant, file), out_len = PLAN_GROUPS_OUT(COUNT);
    lent_call(file, len, out_len, AT_START, &outcome);
    lent_call_after(file, len, PLACED, out_len, AT_START, &after);
    for (int i = 0; i < 8; i++) {
        memcpy(moved + i, file, len);
        uint32_t number = plan_groups(moved + i, len, out + 7 - i, out_len);
        tally(number == 0 && memcmp(out + 7 - i, outcome.out, out_len) == 0, "areas %d bytes on", i);
        number = plan_groups_after(moved + i, len, PLACED, out + 7 - i, out_len);
        tally(number == 0 && memcmp(out + 7 - i, after.out, out_len) == 0, "areas %d bytes on, %d placings", i, PLACED);
    }
}

/* The header's sizes, in numbers of our own. */
static void sizes(void)
{
    int i = 4;
    tally(PLAN_GROUPS_GATEWAYS_MAX == 1024, "the most gateways");
    tally(PLAN_GROUPS_LINKS_MAX == 8192, "the most links");
    tally(PLAN_GROUPS_ALONE == 65535, "the entry of one alone");
    tally(PLAN_GROUPS_OUT_MAX == 3076, "the longest out");
    tally(PLAN_GROUPS_FILE_MAX == 36874, "the longest file");
    tally(PLAN_GROUPS_OUT(0) == 4 && PLAN_GROUPS_OUT(5) == 19, "the out of 0 and of 5 gateways");
    tally(sizeof PLAN_GROUPS_OUT(i) == sizeof(size_t), "an out's length is a size_t");
    tally(PLAN_GROUPS_OUT((uint8_t)200) == 604 && PLAN_GROUPS_OUT(INT_MAX) == 6442450945, "a length is not cut off");
    tally(PLAN_GROUPS_OUT(i ? 1 + 1 : 0) == 10 && PLAN_GROUPS_OUT(i | 1) == 19, "any expression is an argument");
    tally(60 / PLAN_GROUPS_OUT(2) == 6 && PLAN_GROUPS_OUT(2) * 2 == 20, "a length stands in any expression");
    tally(PLAN_GROUPS_OUT(i++) == 16 && i == 5, "the argument is taken once");
}

/* The longest out is just enough for the largest plant, whose file is the longest of version 1. */
static void longest(struct rng *r)
{
    enum { PLACED = 700 };
    plant_open(&plant, PLAN_GROUPS_GATEWAYS_MAX, 2);
    family_fill(&plant, r, PLAN_GROUPS_LINKS_MAX);
    size_t len = plant_write(&plant, file);
    tally(len == PLAN_GROUPS_FILE_MAX - 2 * PLAN_GROUPS_GATEWAYS_MAX, "the largest plant's file has %zu bytes", len);
    lent_call(file, len, PLAN_GROUPS_OUT_MAX, AT_END, &outcome);
    tally(is_accepted() && is_as_expected(&plant, plant.n), "the largest plant and the longest out");
    lent_call(file, len, PLAN_GROUPS_OUT_MAX - 1, AT_END, &outcome);
    tally(outcome.number == 10 && outcome.fault == NULL, "the largest plant and one byte less");
    lent_call_after(file, len, PLACED, PLAN_GROUPS_OUT_MAX, AT_END, &outcome);
    tally(is_accepted() && is_as_expected(&plant, PLACED), "the largest plant, %d placings and the longest out", PLACED);
    lent_call_after(file, len, PLACED, PLAN_GROUPS_OUT_MAX - 1, AT_END, &outcome);
    tally(outcome.number == 10 && outcome.fault == NULL, "the largest plant, %d placings and one byte less", PLACED);
}

int main(void)
{
    struct rng r = {2};
    sizes();
    longest(&r);
    lengths(&r);
    no_area();
    no_area_after();
    repeated(&r);
    alignments(&r);
    return tally_end();
}
