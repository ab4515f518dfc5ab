/*
 * A file of version 2 that says nothing of its own, or the same limit of every gateway, is answered as the plant with that T
 * in version 1: all five calls give the same numbers and write the same bytes.
 */
#include <string.h>

#include "any_limits.h"
#include "families.h"
#include "lent.h"
#include "tally.h"

static struct plant first, second; /* in version 1, and in version 2 */
static long seen[2];               /* accepted, refused */

/* A call, by the number that it takes besides the file. */
struct call {
    const char *name;
    void (*make)(const struct plant *p, uint32_t asked, enum side side, struct outcome *o);
};

static void plan(const struct plant *p, uint32_t asked, enum side side, struct outcome *o)
{
    (void)asked;
    lent_plan(p, side, o);
}

static void plan_after(const struct plant *p, uint32_t asked, enum side side, struct outcome *o)
{
    lent_plan_after(p, (int)asked, side, o);
}

static void plan_short(const struct plant *p, uint32_t asked, enum side side, struct outcome *o)
{
    (void)asked;
    lent_plan_short(p, side, o);
}

/* Lists of plan_groups for the plant in version 1, with a byte of the leaders or of the choke set changed, or with none. */
static void check(const struct plant *p, uint32_t asked, enum side side, struct outcome *o)
{
    static struct outcome lists;
    static uint8_t file[MAX_FILE];
    lent_plan(&first, side, &lists);
    if (asked > 0)
        lists.out[3 * asked % (3 * (uint32_t)p->n + 1)] ^= 1; /* the last is past the lists */
    struct handed h = handed_of(file, plant_write(p, file), p->n, lists.out);
    lent_check(&h, side, o);
}

static const struct call calls[] = {
    {"plan_groups", plan}, {"plan_groups_after", plan_after}, {"plan_groups_recursive", plan_short}, {"why_alone", lent_why},
    {"check_groups", check},
};

enum { CALLS = sizeof calls / sizeof calls[0] };

static void compare(const char *name, const struct call *c, uint32_t asked, struct rng *r)
{
    static struct outcome a, b;
    memset(a.out, 0, sizeof a.out);
    memset(b.out, 0, sizeof b.out);
    c->make(&first, asked, lent_side(r), &a);
    c->make(&second, asked, lent_side(r), &b);
    bool same = a.number == b.number && memcmp(a.out, b.out, sizeof a.out) == 0 && a.fault == NULL && b.fault == NULL;
    tally(same, "%s, %s with %u: %u in version 1, %u in version 2", name, c->name, (unsigned)asked, (unsigned)a.number,
          (unsigned)b.number);
    seen[a.number != 0]++;
}

/* Each call so many times, with numbers up to one more than there are placings and gateways. */
static void compare_all(const char *name, int times, struct rng *r)
{
    for (int i = 0; i < times * CALLS; i++)
        compare(name, &calls[i % CALLS], (uint32_t)rng_between(r, 0, first.n + 1), r);
}

/* Zeros for all; T by the limit byte, whatever the kind; either of these; and T by the limit byte where T is another. */
static void check_plant(const char *name, int times, struct rng *r)
{
    second = first;
    second.version = 2;
    compare_all(name, times, r);
    limits_for_all(&second, r, first.limit);
    compare_all(name, times, r);
    for (int v = 0; v < first.n; v++)
        if (rng_below(r, 2) == 0)
            plant_set_own(&second, v, 0, 0);
    compare_all(name, times, r);
    limits_for_all(&second, r, first.limit == 2 ? rng_between(r, 3, MAX_LIMIT) : 2);
    compare_all(name, times, r);
}

static void some_of_each(struct rng *r, int count, int low, int high)
{
    for (int i = 0; i < count * family_turn; i++) {
        const struct family *f = family_in_turn(i);
        family_make(f, &first, r, rng_between(r, low, high), 0);
        check_plant(f->name, 6, r);
    }
}

int main(void)
{
    struct rng r = {44};
    some_of_each(&r, 2, 0, 2);
    some_of_each(&r, 20, 3, 20);
    some_of_each(&r, 2, 21, 80);
    family_make(family_named("deep tree"), &first, &r, MAX_GATEWAYS, 3);
    check_plant("a large tree", 1, &r);
    tally(seen[0] >= 10000 && seen[1] >= 5000, "only %ld answers and %ld refusals", seen[0], seen[1]);
    return tally_end();
}
