#include "spoiled.h"

#include <string.h>

#include "answer.h"
#include "check_rules.h"
#include "file_rules.h"
#include "lent.h"
#include "tally.h"

uint8_t file[MAX_FILE + MORE];
size_t len, out_len, why_len;
uint32_t placings, gateway;
uint8_t leaders[2 * MORE], choke[MORE];
size_t leaders_len, choke_len;

static struct plant unused;
static struct outcome outcome;

uint8_t *link_at(int i)
{
    return file + HEADER + 4 * i;
}

uint8_t *order_at(int i)
{
    return file + HEADER + 4 * get_number(file + 8) + 2 * i;
}

uint8_t *own_at(int v)
{
    return order_at(get_number(file + 5)) + 2 * v;
}

void put_link(int i, int a, int b)
{
    put_number(link_at(i), a);
    put_number(link_at(i) + 2, b);
}

void put_leader(int v, int number)
{
    put_number(leaders + 2 * v, number);
}

static void put_header(int n, int limit, int m)
{
    memcpy(file, "PLT", 3);
    put_number(file + 3, 1);
    put_number(file + 5, n);
    file[7] = (uint8_t)limit;
    put_number(file + 8, m);
}

/* Returns how many gateways have a link. */
static int put_links(int m)
{
    int a = 0, b = 1, linked = 0;
    for (int i = 0; i < m; i++) {
        put_link(i, a++, b);
        linked = b + 1;
        if (a == b) {
            a = 0;
            b++;
        }
    }
    return linked;
}

/*
 * The last that has a link has one to 0, and all before it have one to each other. So 0 leads the last, and 1 too where
 * they are an odd number; the others are in pairs.
 */
static void put_lists(int n, int linked)
{
    for (int v = 0; v < n; v++)
        put_leader(v, ALONE);
    memset(choke, 0, sizeof choke);
    leaders_len = 2 * (size_t)n;
    choke_len = (size_t)n;
    if (linked == 0)
        return;
    put_leader(0, 0);
    put_leader(linked - 1, 0);
    put_leader(1, 0);
    for (int v = 1 + linked % 2; v + 1 < linked - 1; v += 2) {
        put_leader(v, v);
        put_leader(v + 1, v);
    }
}

void whole(int n, int limit, int m)
{
    put_header(n, limit, m);
    put_lists(n, put_links(m));
    for (int i = 0; i < n; i++)
        put_number(order_at(i), i);
    len = plant_file_size(1, n, m);
    out_len = 3 * (size_t)n + 4;
    why_len = 4 * (size_t)n + 4;
    placings = (uint32_t)n;
    gateway = n > 0 ? (uint32_t)n - 1 : 0;
}

void whole_2(int n, int limit, int m)
{
    whole(n, limit, m);
    put_number(file + 3, 2);
    memset(own_at(0), 0, 2 * (size_t)n);
    len = plant_file_size(2, n, m);
}

void base(void)
{
    whole(N, 3, LINKS);
}

void base_2(void)
{
    whole_2(N, 3, LINKS);
}

static void compare(const char *call, int by_rules, int number, const char *what, int which)
{
    bool ok = (int)outcome.number == number && by_rules == number && outcome.fault == NULL;
    tally(ok, "%s (%d), %u placings, gateway %u: %s gives %u, the rules %d, expected %d; %s", what, which,
          (unsigned)placings, (unsigned)gateway, call, (unsigned)outcome.number, by_rules, number,
          outcome.fault ? outcome.fault : "bounds kept");
}

void expect_after(int number, const char *what, int which)
{
    int by_rules = file_refusal_after(file, len, placings, out_len, &unused);
    for (int side = AT_START; side <= AT_END; side++) {
        lent_call_after(file, len, placings, out_len, side, &outcome);
        compare("plan_groups_after", by_rules, number, what, which);
    }
}

void expect_plan(int number, const char *what, int which)
{
    int by_rules = file_refusal(file, len, out_len, &unused);
    for (int side = AT_START; side <= AT_END; side++) {
        lent_call(file, len, out_len, side, &outcome);
        compare("plan_groups", by_rules, number, what, which);
        lent_call_short(file, len, out_len, side, &outcome);
        compare("plan_groups_recursive", by_rules, number, what, which);
    }
    expect_after(number, what, which);
}

void expect_why(int number, const char *what, int which)
{
    int by_rules = file_refusal_why(file, len, gateway, why_len, &unused);
    for (int side = AT_START; side <= AT_END; side++) {
        lent_call_why(file, len, gateway, why_len, side, &outcome);
        compare("why_alone", by_rules, number, what, which);
    }
}

void expect_check(int number, const char *what, int which)
{
    const struct handed h = {file, len, leaders, leaders_len, choke, choke_len};
    int by_rules = check_refusal(&h);
    for (int side = AT_START; side <= AT_END; side++) {
        lent_check(&h, side, &outcome);
        compare("check_groups", by_rules, number, what, which);
    }
}

void expect(int number, const char *what, int which)
{
    expect_plan(number, what, which);
    expect_why(number, what, which);
    expect_check(number, what, which);
}
