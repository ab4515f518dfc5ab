#include "judge_placings.h"

#include "flow.h"
#include "judge.h"
#include "tally.h"

/* Of the first k in the order the same are alone: who is placed stays alone or stays covered. */
static bool stay(const struct plant *p, const struct answer *before, const struct answer *now, int k)
{
    for (int i = 0; i < k; i++) {
        int v = p->order[i];
        if ((before->leader[v] == ALONE) != (now->leader[v] == ALONE))
            return false;
    }
    return true;
}

/* After each of these numbers of placings, which rise, until one is at fault. */
static void judge_at(const char *name, const struct plant *p, const int *ks, int count, struct rng *r)
{
    static struct answer answers[2];
    static int most[MAX_GATEWAYS + 1];
    const char *fault = NULL;
    flow_every(p, most);
    for (int i = 0; i < count && fault == NULL; i++) {
        fault = judge_after(p, most, ks[i], r, &answers[i % 2]);
        if (fault == NULL && i > 0 && !stay(p, &answers[1 - i % 2], &answers[i % 2], ks[i - 1]))
            fault = "one placed before was alone and is covered, or was covered and is alone";
        tally(fault == NULL, "%s after %d placings: %s", name, ks[i], fault);
    }
    if (fault != NULL)
        plant_print(p);
}

void judge_every_placing(const char *name, const struct plant *p, struct rng *r)
{
    int ks[MAX_GATEWAYS + 1];
    for (int k = 0; k <= p->n; k++)
        ks[k] = k;
    judge_at(name, p, ks, p->n + 1, r);
}

void judge_some_placings(const char *name, const struct plant *p, struct rng *r)
{
    const int n = p->n, ks[] = {0, 1, n / 4, n / 2, 3 * n / 4, n - 1, n};
    judge_at(name, p, ks, 7, r);
}
