#include "judge_check.h"

#include "lent.h"
#include "tally.h"

static struct outcome outcome;

static struct handed write_lists(const struct plant *p, const int *leader, const int *choke)
{
    static uint8_t file[MAX_FILE], out[3 * MAX_GATEWAYS];
    size_t len = plant_write(p, file);
    answer_write(p->n, leader, choke, out);
    return handed_of(file, len, p->n, out);
}

static bool is_given(int number)
{
    return outcome.fault == NULL && outcome.number == (uint32_t)number;
}

int judge_handed(const struct handed *h, struct rng *r, const char *name, int which)
{
    int number = check_refusal(h);
    lent_check(h, lent_side(r), &outcome);
    tally(is_given(number), "%s %d: check_groups gives %u, the rules %d; %s", name, which, (unsigned)outcome.number, number,
          outcome.fault ? outcome.fault : "bounds kept");
    return number;
}

int judge_lists(const struct plant *p, const int *leader, const int *choke, struct rng *r, const char *name, int which)
{
    struct handed h = write_lists(p, leader, choke);
    int number = judge_handed(&h, r, name, which);
    if (!is_given(number))
        plant_print(p);
    return number;
}

bool judge_handed_number(int number, const struct handed *h, const char *name)
{
    int by_rules = check_refusal(h);
    bool both = true;
    for (int side = AT_START; side <= AT_END; side++) {
        lent_check(h, side, &outcome);
        bool ok = is_given(number) && by_rules == number;
        tally(ok, "%s: check_groups gives %u, the rules %d, expected %d; %s", name, (unsigned)outcome.number, by_rules,
              number, outcome.fault ? outcome.fault : "bounds kept");
        both = both && ok;
    }
    return both;
}

void judge_number(int number, const struct plant *p, const int *leader, const int *choke, const char *name)
{
    struct handed h = write_lists(p, leader, choke);
    if (!judge_handed_number(number, &h, name))
        plant_print(p);
}
