/*
 * Plants by hand with a limit for each gateway, each beside the same plant in version 1: limits above T that let more be
 * covered, limits below T that cost some, and limits that change only what moves.
 */
#include <string.h>

#include "judge.h"
#include "judge_check.h"
#include "judge_short.h"
#include "judge_why.h"
#include "lent.h"
#include "packing.h"
#include "tally.h"

enum { MOST = 8, A = ALONE };

/* What plan_groups gives. */
struct given {
    int leader[MOST], choke[MOST];
    int difference, moved;
};

struct edge {
    const char *name;
    int n, limit, m;
    int ends[MOST][2], order[MOST];
    struct {
        int kind, limit;
    } own[MOST];
    struct given common, own_limits; /* in version 1 and in version 2 */
};

#define STAR 5, 3, 4, {{0, 1}, {0, 2}, {0, 3}, {0, 4}}, {0, 1, 2, 3, 4}
#define STAR_GIVES {{0, 0, 0, 0, A}, {1}, 1, 4}
#define LISTING 5, 2, 4, {{0, 2}, {0, 3}, {0, 4}, {1, 2}}, {2, 3, 4, 0, 1}
#define LISTING_GIVES {{0, 2, 2, 0, 0}, {0}, 0, 6}
#define TWO_STARS 8, 3, 6, {{0, 1}, {0, 2}, {0, 3}, {7, 4}, {7, 5}, {7, 6}}, {1, 2, 3, 4, 5, 6, 0, 7}
#define TWO_STARS_GIVES {{0, 0, 0, 0, 7, 7, 7, 7}, {0}, 0, 8}

static const struct edge edges[] = {
    {"no gateway", 0, 2, 0, {{0}}, {0}, {{0, 0}}, {{0}, {0}, 0, 0}, {{0}, {0}, 0, 0}},
    {"one gateway", 1, 2, 0, {{0}}, {0}, {{255, 16}}, {{A}, {0}, 1, 0}, {{A}, {0}, 1, 0}},
    {"two linked", 2, 2, 1, {{0, 1}}, {0, 1}, {{192, 0}, {1, 0}}, {{0, 0}, {0}, 0, 2}, {{0, 0}, {0}, 0, 2}},
    {"one above T", STAR, {{0, 4}}, STAR_GIVES, {{0, 0, 0, 0, 0}, {0}, 0, 5}},
    {"one above T by its kind", STAR, {{32, 0}}, STAR_GIVES, {{0, 0, 0, 0, 0}, {0}, 0, 5}},
    {"far above T by its kind", STAR, {{255, 0}}, STAR_GIVES, {{0, 0, 0, 0, 0}, {0}, 0, 5}},
    {"one below T", STAR, {{0, 2}}, STAR_GIVES, {{0, 0, 0, A, A}, {1}, 2, 3}},
    {"one below T by its kind", STAR, {{31, 0}}, STAR_GIVES, {{0, 0, 0, A, A}, {1}, 2, 3}},
    {"T, said by a limit byte", STAR, {{255, 3}}, STAR_GIVES, STAR_GIVES},
    {"leaves above T", STAR, {{0, 0}, {0, 16}, {0, 16}, {255, 0}, {255, 0}}, STAR_GIVES, STAR_GIVES},
    {"a place more, and nobody moves", LISTING, {{0, 3}}, LISTING_GIVES, {{0, 2, 2, 0, 0}, {0}, 0, 5}},
    {"a place more elsewhere", LISTING, {{0, 0}, {0, 3}, {0, 3}}, LISTING_GIVES, LISTING_GIVES},
    {"one of two below T", TWO_STARS, {{0, 2}}, TWO_STARS_GIVES, {{0, 0, 0, A, 7, 7, 7, 7}, {1}, 1, 7}},
    {"the other below T", TWO_STARS, {{0, 0}, [7] = {1, 0}}, TWO_STARS_GIVES,
     {{0, 0, 0, 0, 7, 7, A, 7}, {[7] = 1}, 1, 7}},
    {"one above and one below", TWO_STARS, {{192, 0}, [7] = {192, 2}}, TWO_STARS_GIVES,
     {{0, 0, 0, 0, 7, 7, A, 7}, {[7] = 1}, 1, 7}},
};

static struct plant plant;

static bool gives(const struct given *g)
{
    static struct outcome o;
    static struct answer a;
    size_t size = (size_t)plant.n * sizeof a.leader[0];
    lent_plan(&plant, AT_END, &o);
    if (lent_answer(&plant, &o, &a) != NULL)
        return false;
    return memcmp(a.leader, g->leader, size) == 0 && memcmp(a.choke, g->choke, size) == 0 && a.moved == g->moved
        && packing_difference(&plant, a.choke) == g->difference;
}

/* Held to all that is known of the answers. */
static void judge(const struct edge *e, struct rng *r)
{
    const char *fault = judge_plant(&plant, r);
    tally(fault == NULL, "%s: %s", e->name, fault);
    fault = judge_short(&plant, r);
    tally(fault == NULL, "%s, by the short search: %s", e->name, fault);
    judge_gateways(e->name, &plant, r);
}

int main(void)
{
    struct rng r = {43};
    for (size_t i = 0; i < sizeof edges / sizeof edges[0]; i++) {
        const struct edge *e = &edges[i];
        plant_fill(&plant, e->n, e->limit, e->m, e->ends, e->order);
        tally(gives(&e->common), "%s: another answer in version 1", e->name);
        for (int v = 0; v < e->n; v++)
            plant_set_own(&plant, v, e->own[v].kind, e->own[v].limit);
        plant.version = 2; /* without a gateway too */
        tally(gives(&e->own_limits), "%s: another answer in version 2", e->name);
        judge_number(0, &plant, e->own_limits.leader, e->own_limits.choke, e->name);
        judge(e, &r);
    }
    return tally_end();
}
