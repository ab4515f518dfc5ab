/*
 * check_groups as a program in C calls it: long lists, NULL, areas that overlap, areas that cannot be written and are
 * longer than 32 bits tell, any address, and no memory of earlier calls.
 */
#define _DEFAULT_SOURCE /* for MAP_ANONYMOUS */
#include <string.h>
#include <sys/mman.h>

#include "families.h"
#include "judge_check.h"
#include "lent.h"
#include "outside.h"
#include "plan_groups.h"
#include "tally.h"

enum { LONG = 200000, SHIFTS = 8, PAGE = 1 << 16 };

static struct plant plant;
static struct outcome outcome;
static uint8_t file[MAX_FILE];
static size_t len;

/* A star of four round gateway 0, T = 3: the lists leave 4 alone. */
static const int star_leader[5] = {0, 0, 0, 0, ALONE}, star_choke[5] = {1};

static void open_star(void)
{
    plant_open(&plant, 5, 3);
    for (int v = 1; v < 5; v++)
        plant_link(&plant, 0, v);
    len = plant_write(&plant, file);
}

/* Lists of any length from n on, among them such as are too short once they are cut to 16 bits. */
static void long_lists(struct rng *r)
{
    static const size_t lengths[] = {10, 11, 255, 256, 257, 511, 512, 513, 65535, 65536, 65537, 65544, 65545, 65546,
                                     131071, 131072, 131073, 131080, 131081, 131082, LONG};
    static uint8_t leaders[LONG], choke[LONG], out[15];
    open_star();
    answer_write(5, star_leader, star_choke, out);
    for (int i = 0; i < LONG; i++)
        leaders[i] = choke[i] = (uint8_t)rng_below(r, 256);
    memcpy(leaders, out, 10);
    memcpy(choke, out + 10, 5);
    for (int i = 0; i < 21; i++) {
        struct handed h = {file, len, leaders, lengths[i], choke, lengths[20 - i]};
        judge_handed_number(0, &h, "long lists");
        h.choke_len = 4;
        judge_handed_number(32, &h, "a long leader list and a short choke list");
        h.leaders_len = 9;
        h.choke_len = lengths[i];
        judge_handed_number(31, &h, "a short leader list and a long choke list");
    }
}

static uint32_t check(const uint8_t *leaders, size_t leaders_len, const uint8_t *choke, size_t choke_len)
{
    return check_groups(file, len, leaders, leaders_len, choke, choke_len);
}

/* NULL for areas of no bytes. */
static void no_area(void)
{
    static const uint8_t lists[4] = {255, 255, 0, 7};
    tally(check_groups(NULL, 0, NULL, 0, NULL, 0) == 9, "no file and no lists");
    tally(check_groups(NULL, 0, lists, 2, lists + 2, 1) == 9, "no file and lists");
    plant_open(&plant, 0, 2);
    len = plant_write(&plant, file);
    tally(check(NULL, 0, NULL, 0) == 0, "no gateway and no lists");
    tally(check(lists, 4, lists, 4) == 0, "no gateway and lists");
    tally(check(lists, 1, NULL, 0) == 0 && check(NULL, 0, lists, 1) == 0, "no gateway and one list");
    plant_open(&plant, 1, 2);
    len = plant_write(&plant, file);
    tally(check(NULL, 0, NULL, 0) == 31, "one gateway and no lists");
    tally(check(NULL, 0, lists + 2, 1) == 31, "one gateway and no leader list");
    tally(check(lists, 2, NULL, 0) == 32, "one gateway and no choke list");
    tally(check(lists, 2, lists + 2, 1) == 0, "one gateway and lists");
    tally(check(lists + 2, 2, NULL, 0) == 31, "one gateway, no packing and no choke list");
    plant.limit = 1;
    len = plant_write(&plant, file);
    tally(check(NULL, 0, NULL, 0) == 2, "T = 1 and no lists");
}

/* Both lists in the area that plan_groups wrote, each with all that stands behind it there. */
static void within_out(struct rng *r)
{
    static uint8_t out[PLAN_GROUPS_OUT_MAX], kept[sizeof out];
    for (int i = 0; i < 2 * family_count; i++) {
        family_make(&families[i % family_count], &plant, r, rng_between(r, 1, 60), 0);
        len = plant_write(&plant, file);
        size_t n = (size_t)plant.n, out_len = PLAN_GROUPS_OUT(n);
        tally(plan_groups(file, len, out, out_len) == 0, "a plan of %s", families[i % family_count].name);
        memcpy(kept, out, out_len);
        tally(check(out, 2 * n, out + 2 * n, n) == 0, "the lists of plan_groups, %zu gateways", n);
        tally(check(out, out_len, out + 2 * n, out_len - 2 * n) == 0, "the same, each to the end of out");
        tally(memcmp(out, kept, out_len) == 0, "out has changed");
    }
}

/* Both lists within the file, from every byte of it on. Counts the numbers that come back. */
static void within_file(const int (*ends)[2], int n, int m, int *seen)
{
    uint8_t kept[64];
    int wrong = 0;
    plant_fill(&plant, n, 2, m, ends, (const int[]){0, 1, 2, 3});
    len = plant_write(&plant, file);
    memcpy(kept, file, len);
    for (size_t i = 0; i <= len; i++) {
        for (size_t j = 0; j <= len; j++) {
            struct handed h = {file, len, file + i, len - i, file + j, len - j};
            uint32_t number = check(h.leaders, h.leaders_len, h.choke, h.choke_len);
            wrong += number != (uint32_t)check_refusal(&h);
            seen[number < 33 ? number : 33]++;
        }
    }
    tally(wrong == 0 && memcmp(file, kept, len) == 0, "lists within the file of %d gateways: %d are wrong", n, wrong);
}

/* The number 0 twice in a row is a pair led by 0. It stands in a file: the second end of a link 1-0, then the order. */
static void overlaps(void)
{
    int seen[34] = {0};
    within_file(NULL, 0, 0, seen);
    tally(seen[0] == 121, "no gateway, all areas in one");
    within_file((const int[][2]){{1, 0}}, 2, 1, seen);
    tally(seen[0] > 121, "two gateways, all areas in one: not accepted");
    tally(check(file + HEADER + 2, 4, file + HEADER + 2, 2) == 0, "two gateways, both lists the same bytes");
    tally(check(file, len, file, len) == 31, "two gateways, all areas the same");
    within_file((const int[][2]){{2, 0}, {0, 1}, {1, 2}}, 3, 3, seen);
    within_file((const int[][2]){{3, 0}, {0, 1}, {1, 2}}, 4, 3, seen);
    tally(seen[31] > 500 && seen[32] > 20, "only %d of 31 and %d of 32", seen[31], seen[32]);
}

/*
 * Areas that can only be read, and of which there are more than four billion bytes: a file of two gateways, and zeros behind
 * it. All lengths are good but the file's own.
 */
static void read_only(void)
{
    const size_t over = (size_t)1 << 32, all = 2 * over + 2 * PAGE;
    uint8_t *at = mmap(NULL, all, PROT_READ, MAP_PRIVATE | MAP_ANONYMOUS, -1, 0), *zeros = at + PAGE;
    must(at != MAP_FAILED && mprotect(at, PAGE, PROT_READ | PROT_WRITE) == 0, "no memory for long areas");
    plant_fill(&plant, 2, 2, 1, (const int[][2]){{0, 1}}, (const int[]){0, 1});
    len = plant_write(&plant, at);
    must(mprotect(at, PAGE, PROT_READ) == 0, "no memory for long areas");
    tally(check_groups(at, len, zeros, 4, zeros, 2) == 0, "areas that cannot be written");
    tally(check_groups(at, len, zeros, over, zeros, 2) == 0, "a leader list of 2^32 bytes");
    tally(check_groups(at, len, zeros, 2 * over, zeros, 2) == 0, "a leader list of 2^32 entries");
    tally(check_groups(at, len, zeros, 4, zeros, over) == 0, "a choke list of 2^32 bytes");
    tally(check_groups(at, over + len, zeros, 4, zeros, 2) == 9, "a file of 2^32 bytes more");
    tally(check_groups(at, over, zeros, 4, zeros, 2) == 9, "a file of 2^32 bytes");
    must(munmap(at, all) == 0, "no memory for long areas");
}

/* Every address is good: the areas begin at odd and even ones. */
static void alignments(void)
{
    static uint8_t moved[MAX_FILE + SHIFTS], leaders[10 + SHIFTS], choke[5 + SHIFTS], out[15];
    open_star();
    answer_write(5, star_leader, star_choke, out);
    for (int i = 0; i < SHIFTS; i++) {
        for (int j = 0; j < SHIFTS; j++) {
            memcpy(moved + i, file, len);
            memcpy(leaders + j, out, 10);
            memcpy(choke + SHIFTS - 1 - i, out + 10, 5);
            uint32_t number = check_groups(moved + i, len, leaders + j, 10, choke + SHIFTS - 1 - i, 5);
            tally(number == 0, "areas %d and %d bytes on", i, j);
        }
    }
}

/* What was called before leaves no trace, whatever came of it. */
static void repeated(struct rng *r)
{
    static struct answer a;
    for (int i = 0; i < 50; i++) {
        family_make(&families[i % family_count], &plant, r, rng_between(r, 1, 60), 0);
        lent_plan(&plant, AT_START, &outcome);
        answer_read(&a, plant.n, outcome.out);
        judge_number(0, &plant, a.leader, a.choke, "lists of plan_groups");
        a.leader[rng_below(r, plant.n)] = plant.n;
        judge_number(31, &plant, a.leader, a.choke, "a number past n");
        open_star();
        judge_number(0, &plant, star_leader, star_choke, "the star");
        lent_why(&plant, 4, AT_END, &outcome);
        judge_number(32, &plant, star_leader, (const int[5]){0}, "the star without its set");
        lent_check(&(struct handed){file, 3, file, 0, file, 0}, AT_END, &outcome);
        judge_number(0, &plant, star_leader, star_choke, "the star again");
    }
}

int main(void)
{
    struct rng r = {23};
    long_lists(&r);
    no_area();
    within_out(&r);
    overlaps();
    read_only();
    alignments();
    repeated(&r);
    return tally_end();
}
