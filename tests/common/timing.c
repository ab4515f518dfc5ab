#include "timing.h"

#include <string.h>

#include "answer.h"
#include "flow.h"
#include "flow_agrees.h"
#include "flow_plan.h"
#include "plain_plan.h"
#include "plain_work.h"
#include "plan_groups.h"
#include "stopwatch.h"

/*
 * With care. More rounds that are shorter do not serve: on the largest plants it takes milliseconds until the plain program
 * runs at full speed, and where others use the machine it may then never do so.
 */
enum { ROUNDS = 11, ROUNDS_AT_FIRST = 5 };
static const double share = 0.007;

/* What the works take and give. The answers are looked at, so that no work is left out. */
static const struct plant *plant;
static uint8_t file[MAX_FILE], by_call[PLAN_GROUPS_OUT_MAX], by_plain[PLAN_GROUPS_OUT_MAX], by_other[PLAN_GROUPS_OUT_MAX],
    by_flow[PLAN_GROUPS_OUT_MAX];
static size_t len;
static uint32_t refusals;
static int covered;

static void work_call(void)
{
    refusals |= plan_groups(file, len, by_call, sizeof by_call);
}

static void work_plain(void)
{
    refusals |= plain_plan(file, len, by_plain, sizeof by_plain);
}

static void work_recursive(void)
{
    refusals |= plan_groups_recursive(file, len, by_other, sizeof by_other);
}

static void work_flow(void)
{
    refusals |= flow_plan(plant, file, len, by_flow, sizeof by_flow);
}

/* It begins with the file too, which the plain program's reader checks, and gives only how many can be covered. */
static void work_count(void)
{
    static struct work w;
    refusals |= plain_take(&w, file, len);
    covered = flow_most(plant, plant->n);
}

static void begin(const struct plant *p)
{
    plant = p;
    len = plant_write(p, file);
    refusals = 0;
}

/* Whether the call and the plain program gave the same bytes; takes from them who is alone and how many moved. */
static bool end(struct timing *t)
{
    static struct answer a;
    answer_read(&a, plant->n, by_call);
    t->alone = plant->n - answer_covered(plant, a.leader, plant->n);
    t->moved = a.moved;
    return refusals == 0 && memcmp(by_call, by_plain, answer_size(plant->n)) == 0;
}

bool timing_all(const struct plant *p, struct timing *t)
{
    static void (*const works[])(void) = {work_call, work_plain, work_recursive, work_flow, work_count};
    double seconds[5];
    begin(p);
    stopwatch(5, works, ROUNDS, share, seconds);
    t->call = seconds[0];
    t->plain = seconds[1];
    t->recursive = seconds[2];
    t->flow = seconds[3];
    t->count = seconds[4];
    return end(t) && flow_agrees(p, by_flow, by_call) && covered == p->n - t->alone;
}

bool timing_two(const struct plant *p, bool with_care, struct timing *t)
{
    static void (*const works[])(void) = {work_call, work_plain};
    double seconds[2];
    begin(p);
    stopwatch(2, works, with_care ? ROUNDS : ROUNDS_AT_FIRST, with_care ? share : 0, seconds);
    t->call = seconds[0];
    t->plain = seconds[1];
    return end(t);
}
