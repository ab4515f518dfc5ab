#include "judge_damage.h"

#include "damage.h"
#include "families.h"
#include "file_rules.h"
#include "judge.h"
#include "judge_check.h"
#include "judge_short.h"
#include "lent.h"
#include "placing.h"
#include "tally.h"
#include "why.h"

enum { NUMBERS = 34, OFTEN = 10 };

/* How many damaged files met each number, by the call. */
struct met {
    int plan[NUMBERS], after[NUMBERS], why[NUMBERS], check[NUMBERS];
};

/* NULL where the call gave the rules' number and did nothing that it must not do. */
static const char *number_fault(const struct outcome *o, int number)
{
    if (o->fault != NULL)
        return o->fault;
    return (int)o->number == number ? NULL : "another number";
}

static const char *fault_of(const struct plant *p, int k, const struct outcome *o, int number)
{
    static struct answer got, expected;
    const char *fault = number_fault(o, number);
    if (fault != NULL || number != 0)
        return fault;
    answer_read(&got, p->n, o->out);
    judge_expect(p, k, &expected);
    return answer_differs(&got, &expected, p->n);
}

static const char *short_fault_of(const struct plant *p, const struct outcome *o, int number)
{
    static struct answer got, expected;
    const char *fault = number_fault(o, number);
    if (fault != NULL || number != 0)
        return fault;
    answer_read(&got, p->n, o->out);
    judge_short_expect(p, &expected);
    return answer_differs(&got, &expected, p->n);
}

static size_t any_length(struct rng *r)
{
    return (size_t)(rng_below(r, 8) == 0 ? rng_below(r, 60) : 4096);
}

/* Calls with the damaged file, by either search; returns the number that the rules give. */
static int check(const struct damaged *d, struct rng *r, int which)
{
    static struct plant p;
    static struct outcome o;
    size_t out_len = any_length(r);
    int number = file_refusal(d->file, d->len, out_len, &p);
    lent_call(d->file, d->len, out_len, lent_side(r), &o);
    const char *fault = fault_of(&p, p.n, &o, number);
    tally(fault == NULL, "damaged file %d: %s; the call gives %u, the rules %d", which, fault, (unsigned)o.number, number);
    lent_call_short(d->file, d->len, out_len, lent_side(r), &o);
    fault = short_fault_of(&p, &o, number);
    tally(fault == NULL, "damaged file %d, the short search: %s; the call gives %u, the rules %d", which, fault,
          (unsigned)o.number, number);
    return number;
}

/* Mostly few, as n is here; and some that are few once they are cut to fewer bits. */
static uint32_t any_number(struct rng *r)
{
    const uint32_t many[] = {256, 65535, 65536, 1u << 24, 1u << 31, UINT32_MAX - 20};
    uint32_t few = (uint32_t)rng_below(r, 22);
    return rng_below(r, 6) == 0 ? many[rng_below(r, 6)] + few : few;
}

/* The same after some placings. */
static int check_after(const struct damaged *d, struct rng *r, int which)
{
    static struct plant p;
    static struct outcome o;
    size_t out_len = any_length(r);
    uint32_t placings = any_number(r);
    int number = file_refusal_after(d->file, d->len, placings, out_len, &p);
    lent_call_after(d->file, d->len, placings, out_len, lent_side(r), &o);
    const char *fault = fault_of(&p, (int)placings, &o, number);
    tally(fault == NULL, "damaged file %d, %u placings: %s; the call gives %u, the rules %d", which,
          (unsigned)placings, fault, (unsigned)o.number, number);
    return number;
}

/* One that is left in a plant, if there is any, or any number. */
static uint32_t any_gateway(const struct plant *p, struct rng *r)
{
    int holder[MAX_GATEWAYS], left[MAX_GATEWAYS], count = 0;
    placing_first(p, p->n, holder);
    for (int v = 0; v < p->n; v++)
        if (holder[v] == NOBODY)
            left[count++] = v;
    return count == 0 || rng_below(r, 3) == 0 ? any_number(r) : (uint32_t)left[rng_below(r, count)];
}

static const char *why_fault_of(const struct plant *p, int gateway, const struct outcome *o, int number)
{
    static struct why got, expected;
    int holder[MAX_GATEWAYS];
    const char *fault = number_fault(o, number);
    if (fault != NULL || number != 0)
        return fault;
    placing_first(p, p->n, holder);
    why_expect(p, holder, gateway, &expected);
    return why_read(&got, p->n, o->out) && why_same(&got, &expected) ? NULL : "the sets are others than by the walk";
}

/* Why a gateway is alone that was left before the damage, or any other. */
static int check_why(const struct damaged *d, struct rng *r, int which, uint32_t gateway)
{
    static struct plant p;
    static struct outcome o;
    size_t out_len = any_length(r);
    int number = file_refusal_why(d->file, d->len, gateway, out_len, &p);
    lent_call_why(d->file, d->len, gateway, out_len, lent_side(r), &o);
    const char *fault = why_fault_of(&p, (int)gateway, &o, number);
    tally(fault == NULL, "damaged file %d, gateway %u: %s; the call gives %u, the rules %d", which, (unsigned)gateway,
          fault, (unsigned)o.number, number);
    return number;
}

/* The lists of the papers' rules for a plant, as bytes. */
static void write_lists(const struct plant *p, uint8_t *out)
{
    static struct answer a;
    judge_expect(p, p->n, &a);
    answer_write(p->n, a.leader, a.choke, out);
}

/* The damage reaches these refusals, which are as many. */
static void reaches(const char *call, const int *seen, const int *numbers, int count)
{
    for (int i = 0; i < count; i++)
        tally(seen[numbers[i]] >= OFTEN, "%s: only %d damaged files met number %d", call, seen[numbers[i]], numbers[i]);
}

static void reach_all(const struct met *met, int version)
{
    static const int all[] = {0, 1, 2, 3, 4, 6, 7, 8, 9, 10, 12, 20, 24};
    static const int all_of_why[] = {0, 1, 2, 3, 4, 6, 7, 8, 9, 10, 12, 20, 30};
    static const int all_of_check[] = {0, 1, 2, 3, 4, 6, 7, 8, 9, 12, 20, 31, 32};
    static const int own[] = {33};
    reaches("plan_groups", met->plan, all, 12);
    reaches("plan_groups_after", met->after, all, 13);
    reaches("why_alone", met->why, all_of_why, 13);
    reaches("check_groups", met->check, all_of_check, 13);
    if (version == 1)
        return;
    reaches("plan_groups", met->plan, own, 1);
    reaches("plan_groups_after", met->after, own, 1);
    reaches("why_alone", met->why, own, 1);
    reaches("check_groups", met->check, own, 1);
}

static void make(struct plant *p, int version, struct rng *r)
{
    const struct family *f = &families[rng_below(r, family_count)];
    int n = rng_between(r, 0, 20);
    if (version == 1)
        family_make(f, p, r, n, 0);
    else
        family_make_own(f, p, r, n);
}

void judge_damaged(int version, int files, struct rng *r)
{
    static struct plant p;
    static struct damaged d;
    static uint8_t lists[3 * MAX_GATEWAYS];
    struct met met = {.plan = {0}};
    for (int i = 0; i < files; i++) {
        make(&p, version, r);
        uint32_t gateway = any_gateway(&p, r);
        write_lists(&p, lists);
        d.len = plant_write(&p, d.file);
        damage(&d, i % (version == 1 ? DAMAGE_WAYS : DAMAGE_WAYS_2), r);
        struct handed h = handed_of(d.file, d.len, p.n, lists);
        met.plan[check(&d, r, i)]++;
        met.after[check_after(&d, r, i)]++;
        met.why[check_why(&d, r, i, gateway)]++;
        met.check[judge_handed(&h, r, "damaged file", i)]++;
    }
    reach_all(&met, version);
}
