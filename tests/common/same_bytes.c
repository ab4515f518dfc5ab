#include "same_bytes.h"

#include <stdio.h>
#include <string.h>

#include "damage.h"
#include "families.h"
#include "flow_agrees.h"
#include "flow_plan.h"
#include "plain_plan.h"
#include "plan_groups.h"

enum { UNTOUCHED = 0xa5 };

bool same_bytes(const uint8_t *file, size_t len, size_t out_len)
{
    uint8_t ours[PLAN_GROUPS_OUT_MAX], plain[PLAN_GROUPS_OUT_MAX];
    memset(ours, UNTOUCHED, sizeof ours);
    memset(plain, UNTOUCHED, sizeof plain);
    return plan_groups(file, len, ours, out_len) == plain_plan(file, len, plain, out_len) &&
           memcmp(ours, plain, sizeof ours) == 0;
}

static void make(struct plant *p, struct rng *r, int i)
{
    const struct family *f = family_in_turn(i);
    int n = rng_between(r, 0, i % 4 == 0 ? 64 : 16);
    if (rng_below(r, 2) == 0)
        family_make(f, p, r, n, 0);
    else
        family_make_own(f, p, r, n);
}

static bool flow_goes_with(const struct plant *p, const uint8_t *file, size_t len, size_t out_len)
{
    uint8_t ours[PLAN_GROUPS_OUT_MAX], by_flow[PLAN_GROUPS_OUT_MAX];
    uint32_t number = plan_groups(file, len, ours, out_len);
    return flow_plan(p, file, len, by_flow, out_len) == number && (number != 0 || flow_agrees(p, by_flow, ours));
}

/*
 * The plant's file as it is, and damaged where a damaged file has room for it; now and then an out that is too short. NULL,
 * or what is wrong.
 */
static const char *fault_on(const struct plant *p, struct rng *r)
{
    static uint8_t file[MAX_FILE];
    static struct damaged d;
    size_t len = plant_write(p, file);
    size_t out_len = rng_below(r, 8) == 0 ? (size_t)rng_below(r, 60) : PLAN_GROUPS_OUT_MAX;
    if (!same_bytes(file, len, out_len))
        return "plan_groups and the plain program differ";
    if (!flow_goes_with(p, file, len, out_len))
        return "the plan by flow does not go with that of plan_groups";
    if (len > DAMAGE_ROOM / 2)
        return NULL;
    memcpy(d.file, file, len);
    d.len = len;
    damage(&d, rng_below(r, p->version == 1 ? DAMAGE_WAYS : DAMAGE_WAYS_2), r);
    return same_bytes(d.file, d.len, out_len) ? NULL : "plan_groups and the plain program differ on the damaged file";
}

bool same_on_small(int plants)
{
    static struct plant p;
    struct rng r = {20};
    for (int i = 0; i < plants; i++) {
        make(&p, &r, i);
        const char *fault = fault_on(&p, &r);
        if (fault != NULL) {
            printf("plant %d: %s\n", i, fault);
            plant_print(&p);
            return false;
        }
    }
    printf("%d small plants and damaged files: plan_groups and the plain program give the same bytes\n", plants);
    printf("%d small plants: the plan by flow covers as many, with the same choke set\n", plants);
    return true;
}
