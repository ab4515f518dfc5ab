/*
 * The listing program, run in a folder of its own and compared byte by byte.
 * Arguments: the program, an empty folder to work in, the plant file of document 01's listing, one with own limits.
 */
#define _POSIX_C_SOURCE 200809L
#include <stdio.h>
#include <string.h>
#include <unistd.h>

#include "any_limits.h"
#include "families.h"
#include "file_rules.h"
#include "judge.h"
#include "listing_text.h"
#include "outside.h"
#include "plan_groups.h"
#include "tally.h"

enum { MAX_PLANT = 1 << 20 };

static const char *program;
static struct plant plant;
static uint8_t file[MAX_PLANT];
static size_t len;
static char listed[MAX_TEXT + 1], expected[MAX_TEXT + 1];

static void store_plant(void)
{
    store("plant.plt", file, len);
}

/* Runs the program; false where it ends badly. What it printed is then in listed. */
static bool list(size_t *length)
{
    char *const words[] = {(char *)program, NULL};
    if (run_said(words, "listed", false) != 0)
        return false;
    *length = load("listed", listed, MAX_TEXT);
    return true;
}

static void expect(const char *text, size_t length, const char *what, int which)
{
    size_t got = 0;
    bool ok = list(&got) && got == length && memcmp(listed, text, length) == 0;
    listed[got] = 0;
    tally(ok, "%s (%d): printed\n%.400s", what, which, listed);
}

static void expect_refused(int number, const char *what, int which)
{
    int length = sprintf(expected, "refused %d\n", number);
    store_plant();
    expect(expected, (size_t)length, what, which);
}

static void expect_listing(const char *what, int which)
{
    static struct answer a;
    judge_expect(&plant, plant.n, &a);
    len = plant_write(&plant, file);
    store_plant();
    expect(expected, listing_text(&plant, &a, expected), what, which);
}

static const char document_listing[] =
    "gateways 5 limit 2 covered 5\n"
    "lead 0: 3 4\n"
    "lead 2: 1\n"
    "alone:\n"
    "choke:\n";

static void fill_document_plant(void)
{
    static const int ends[4][2] = {{0, 2}, {0, 3}, {0, 4}, {1, 2}};
    static const int order[5] = {2, 3, 4, 0, 1};
    plant_fill(&plant, 5, 2, 4, ends, order);
    len = plant_write(&plant, file);
}

static void document_plant(const uint8_t *sample, size_t sample_len)
{
    fill_document_plant();
    tally(len == sample_len && memcmp(file, sample, len) == 0, "the sample is another plant than document 01's");
    store_plant();
    expect(document_listing, strlen(document_listing), "the listing of document 01's plant", 0);
}

/* The sample with own limits: T is 3, and the hubs 0, 1 and 2 have 2, by its kind 16, and 4. */
static const char own_listing[] =
    "gateways 15 limit 3 covered 14\n"
    "lead 0: 3 4\n"
    "lead 1: 6 7 8 9 10\n"
    "lead 2: 11 12 13 14\n"
    "alone: 5\n"
    "choke: 0\n";

/* The same plant in version 1. */
static const char common_listing[] =
    "gateways 15 limit 3 covered 12\n"
    "lead 0: 3 4 5\n"
    "lead 1: 6 7 8\n"
    "lead 2: 11 12 13\n"
    "alone: 9 10 14\n"
    "choke: 1 2\n";

static void own_plant(const uint8_t *sample, size_t sample_len)
{
    plant_open(&plant, 15, 3);
    for (int v = 3; v < 15; v++)
        plant_link(&plant, v < 6 ? 0 : v < 11 ? 1 : 2, v);
    len = plant_write(&plant, file);
    store_plant();
    expect(common_listing, strlen(common_listing), "the listing without own limits", 0);
    plant_set_own(&plant, 0, 0, 2);
    plant_set_own(&plant, 1, 200, 0);
    plant_set_own(&plant, 2, 0, 4);
    len = plant_write(&plant, file);
    tally(len == sample_len && memcmp(file, sample, len) == 0, "the sample with own limits is another plant");
    store_plant();
    expect(own_listing, strlen(own_listing), "the listing with own limits", 0);
}

/* Two linked gateways under both orders. */
static void two_linked(void)
{
    static const int ends[1][2] = {{0, 1}}, orders[2][2] = {{0, 1}, {1, 0}};
    static const char *const listings[2] = {
        "gateways 2 limit 16 covered 2\nlead 0: 1\nalone:\nchoke:\n",
        "gateways 2 limit 16 covered 2\nlead 1: 0\nalone:\nchoke:\n",
    };
    for (int i = 0; i < 2; i++) {
        plant_fill(&plant, 2, 16, 1, ends, orders[i]);
        len = plant_write(&plant, file);
        store_plant();
        expect(listings[i], strlen(listings[i]), "two linked", i);
    }
}

/* Every way in which the document's plant can be cut or a byte of it be changed a little. */
static void refused_files(void)
{
    static struct plant unused;
    fill_document_plant();
    size_t full = len;
    for (len = 0; len < full; len++)
        expect_refused(9, "cut to", (int)len);
    for (size_t i = 0; i < full; i++) {
        fill_document_plant();
        file[i] = (uint8_t)(file[i] ^ 0x40);
        expect_refused(file_refusal(file, len, PLAN_GROUPS_OUT_MAX, &unused), "changed byte", (int)i);
    }
}

static void missing_file(void)
{
    remove("plant.plt");
    expect("refused 9\n", 10, "no plant file", 0);
}

static void long_files(void)
{
    static const size_t lengths[] = {MAX_FILE, MAX_FILE + 1, MAX_FILE + 2, 40000, 65536, 65572, 70000, MAX_PLANT};
    for (size_t i = 0; i < sizeof lengths / sizeof lengths[0]; i++) {
        memset(file, 0, sizeof file);
        fill_document_plant();
        len = lengths[i];
        expect_refused(9, "too long", (int)len);
        file[1] = 'Q';
        expect_refused(7, "too long, and not PLT", (int)len);
        fill_document_plant();
        file[7] = 1;
        len = lengths[i];
        expect_refused(2, "too long, and T = 1", (int)len);
    }
}

static void small_plants(struct rng *r)
{
    for (int n = 0; n <= 2; n++) {
        plant_open(&plant, n, 16);
        expect_listing("no links", n);
    }
    for (int i = 0; i < 10 * family_count; i++) {
        family_make(&families[i % family_count], &plant, r, rng_between(r, 3, 40), 0);
        expect_listing(families[i % family_count].name, i);
    }
}

/* The longest file of either version, and one a byte longer. */
static void longest_files(struct rng *r)
{
    plant_open(&plant, MAX_GATEWAYS, 3);
    family_fill(&plant, r, MAX_LINKS);
    expect_listing("the longest file", plant.m);
    len++;
    expect_refused(9, "the longest file and a byte more", plant.m);
    any_limits(&plant, r);
    expect_listing("the longest file of version 2", plant.m);
    len++;
    expect_refused(9, "the longest file of version 2 and a byte more", plant.m);
    len -= 2;
    expect_refused(9, "the longest file of version 2 and a byte less", plant.m);
}

static void own_plants(struct rng *r)
{
    for (int i = 0; i < 3 * family_turn; i++) {
        family_make_own(family_in_turn(i), &plant, r, rng_between(r, 1, 40));
        expect_listing(family_in_turn(i)->name, i);
    }
    plant_set_own(&plant, plant.n / 2, 0, 17);
    len = plant_write(&plant, file);
    expect_refused(33, "a limit byte of 17", plant.n);
    plant_set_own(&plant, plant.n / 2, 255, 1);
    len = plant_write(&plant, file);
    expect_refused(33, "a limit byte of 1", plant.n);
}

int main(int argc, char **argv)
{
    static uint8_t sample[100], own_sample[200];
    struct rng r = {7};
    if (argc != 5)
        return 2;
    size_t sample_len = load(argv[3], sample, sizeof sample), own_len = load(argv[4], own_sample, sizeof own_sample);
    program = argv[1];
    if (chdir(argv[2]) != 0)
        return 2;
    document_plant(sample, sample_len);
    own_plant(own_sample, own_len);
    two_linked();
    refused_files();
    missing_file();
    long_files();
    small_plants(&r);
    longest_files(&r);
    own_plants(&r);
    return tally_end();
}
