#include "judge_all_lists.h"

#include "check_rules.h"
#include "packing.h"
#include "plan_groups.h"
#include "tally.h"

enum { MOST = 5, MOST_SETS = 243, FEW = 3 };

static const struct plant *plant;
static uint8_t file[MAX_FILE], sets[MOST_SETS][MOST]; /* sets: every choke list */
static size_t len;
static int set_count;

/* What was met in one plant. */
struct met {
    int wrong;   /* answers that are not the rules' own */
    int most;    /* the most that a packing covers */
    int unshown; /* packings that cover so many and are accepted with no choke list */
    int least;   /* the least that an accepted list covers */
};

static int power(int of, int times)
{
    return times == 0 ? 1 : of * power(of, times - 1);
}

static void list_sets(void)
{
    set_count = power(3, plant->n);
    for (int i = 0; i < set_count; i++)
        for (int v = 0, rest = i; v < plant->n; v++, rest /= 3)
            sets[i][v] = (uint8_t)(rest % 3);
}

/* The list of that number: the digits 0 to n are entries, and n + 1 stands for 65535. */
static void make_list(int number, int *leader, uint8_t *leaders)
{
    for (int v = 0; v < plant->n; v++, number /= plant->n + 2) {
        int digit = number % (plant->n + 2);
        leader[v] = digit > plant->n ? ALONE : digit;
        put_number(leaders + 2 * v, leader[v]);
    }
}

/* How many of so many choke lists, from the first on and then at even steps, are accepted with a leader list. */
static int count_accepted(const uint8_t *leaders, int first, int count, struct met *met)
{
    int accepted = 0;
    for (int i = 0; i < count; i++) {
        const uint8_t *set = sets[(first + i * (set_count / count)) % set_count];
        struct handed h = {file, len, leaders, 2 * (size_t)plant->n, set, (size_t)plant->n};
        uint32_t number = check_groups(h.file, h.len, h.leaders, h.leaders_len, h.choke, h.choke_len);
        met->wrong += number != (uint32_t)check_refusal(&h);
        accepted += number == 0;
    }
    return accepted;
}

static void check_list(int number, bool few, struct met *met)
{
    int leader[MOST];
    uint8_t leaders[2 * MOST];
    make_list(number, leader, leaders);
    bool packing = packing_is(plant, leader);
    int covered = plant->n - packing_alone(plant, leader);
    bool shown = count_accepted(leaders, number, few && !packing ? FEW : set_count, met) > 0;
    if (packing && covered > met->most) {
        met->most = covered;
        met->unshown = 0;
    }
    met->unshown += packing && covered == met->most && !shown;
    if (shown && covered < met->least)
        met->least = covered;
}

void judge_all_lists(const struct plant *p, const char *name, int which, bool few)
{
    struct met met = {.least = p->n + 1};
    int lists = power(p->n + 2, p->n);
    plant = p;
    len = plant_write(p, file);
    list_sets();
    for (int i = 0; i < lists; i++)
        check_list(i, few, &met);
    tally(met.wrong == 0, "%s %d: %d numbers are not the rules' own", name, which, met.wrong);
    tally(met.unshown == 0, "%s %d: %d lists that cover the most are never accepted", name, which, met.unshown);
    tally(met.least == met.most, "%s %d: an accepted list covers %d, the most are %d", name, which, met.least, met.most);
    if (met.wrong > 0)
        plant_print(p);
}
