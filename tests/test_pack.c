/*
 * scripts/pack: texts of plants into plant files, held to the files that we write ourselves.
 * Arguments: the script, an empty folder to work in. The last plant packed is left in plant.plt.
 */
#define _POSIX_C_SOURCE 200809L
#include <stdio.h>
#include <string.h>
#include <unistd.h>

#include "any_limits.h"
#include "families.h"
#include "outside.h"
#include "plan_groups.h"
#include "tally.h"

enum { MAX_SAID = 1000 };

static const char *script;
static struct plant plant;
static uint8_t file[MAX_FILE], packed[MAX_FILE + 1], out[PLAN_GROUPS_OUT_MAX];

/* Packs plant.txt into plant.plt; what is said goes to the file said. The script's status. */
static int pack(void)
{
    char *const words[] = {(char *)script, "plant.txt", "plant.plt", NULL};
    return run_said(words, "said", true);
}

static void write_text(const char *text)
{
    store("plant.txt", text, strlen(text));
}

/* A text that is refused: the words that are said, and no plant file. */
static void expect_wrong(const char *text, const char *words)
{
    static char said[MAX_SAID + 1], expected[MAX_SAID];
    remove("plant.plt");
    write_text(text);
    int status = pack();
    said[load("said", said, MAX_SAID)] = 0;
    snprintf(expected, sizeof expected, "plant.txt:%s\n", words);
    bool ok = status == 1 && strcmp(said, expected) == 0 && access("plant.plt", F_OK) != 0;
    tally(ok, "status %d, expected %sand said %s", status, expected, said);
}

static void wrong_texts(void)
{
    static const char *const texts[][2] = {
        {"", " there is no line \"gateways\""},
        {"# gateways 5\nlimit 2\n", " there is no line \"gateways\""},
        {"gateways 5\n", " there is no line \"limit\""},
        {"gateways\n", "1: \"gateways\" takes one number"},
        {"gateways 5 6\n", "1: \"gateways\" takes one number"},
        {"gateways five\n", "1: \"five\" is not a number from 0 on"},
        {"gateways -1\n", "1: \"-1\" is not a number from 0 on"},
        {"gateways 1e2\n", "1: \"1e2\" is not a number from 0 on"},
        {"gateways 5\n\ngateways 5\n", "3: \"gateways\" stands in line 1 already"},
        {"gateways 1025\n", "1: 1025 gateways are more than 1024"},
        {"gateways 99999999999999999999\n", "1: 99999999999999999999 gateways are more than 1024"},
        {"limit\n", "1: \"limit\" takes one number"},
        {"limit 1\n", "1: limit 1 is not 2 to 16"},
        {"limit 17\n", "1: limit 17 is not 2 to 16"},
        {"limit 258\n", "1: limit 258 is not 2 to 16"},
        {"limit 2\nlimit 2\n", "2: \"limit\" stands in line 1 already"},
        {"links 0 1\n", "1: \"links\" is none of gateways, limit, link, order, version, own"},
        {"gateways 5\n0 1\n", "2: \"0\" is none of gateways, limit, link, order, version, own"},
        {"limit 2\nlink 0 1\n", "2: \"link\" stands before the line \"gateways\""},
        {"limit 2\norder 0 1\n", "2: \"order\" stands before the line \"gateways\""},
        {"gateways 5\nlimit 2\nlink 0\n", "3: \"link\" takes two numbers"},
        {"gateways 5\nlimit 2\nlink 0 1 2\n", "3: \"link\" takes two numbers"},
        {"gateways 5\nlimit 2\nlink 0 1 # 2\nlink 0 #1\n", "4: \"link\" takes two numbers"},
        {"gateways 5\nlimit 2\nlink 0 b\n", "3: \"b\" is not a number from 0 on"},
        {"gateways 5\nlimit 2\n\n\n# five\n\nlink 9 0\n", "7: link end 9 is not below 5 gateways"},
        {"gateways 5\nlimit 2\nlink 0 5\n", "3: link end 5 is not below 5 gateways"},
        {"gateways 5\nlimit 2\nlink 0 65536\n", "3: link end 65536 is not below 5 gateways"},
        {"gateways 5\nlimit 2\nlink 3 3\n", "3: both ends of the link are 3"},
        {"gateways 5\nlimit 2\nlink 3 4\nlink 0 1\nlink 3 4\n", "5: the link 3 4 stands in line 3 already"},
        {"gateways 5\nlimit 2\nlink 3 4\nlink 04 3\n", "4: the link 4 3 stands in line 3 already"},
        {"gateways 5\nlimit 2\norder 0 1 2 3 5\n", "3: order number 5 is not below 5 gateways"},
        {"gateways 5\nlimit 2\norder 0 1\norder 2 3 1\n", "4: gateway 1 stands in the order already, in line 3"},
        {"gateways 5\nlimit 2\norder 0 1 2 0 4\n", "3: gateway 0 stands in the order already, in line 3"},
        {"gateways 5\nlimit 2\norder 0 1\norder 4\nlink 0 1\n", "4: the order ends without gateway 2"},
        {"gateways 5\nlimit 2\norder\n", "3: the order ends without gateway 0"},
        {"gateways 5\nlimit 2\norder 0 1 2 3 x\n", "3: \"x\" is not a number from 0 on"},
    };
    for (size_t i = 0; i < sizeof texts / sizeof texts[0]; i++)
        expect_wrong(texts[i][0], texts[i][1]);
}

static void wrong_own_texts(void)
{
    static const char *const texts[][2] = {
        {"version\n", "1: \"version\" takes one number"},
        {"version 0\n", "1: version 0 is neither 1 nor 2"},
        {"version 3\n", "1: version 3 is neither 1 nor 2"},
        {"version 258\n", "1: version 258 is neither 1 nor 2"},
        {"version 2\n\nversion 2\n", "3: \"version\" stands in line 1 already"},
        {"version 2\nown 0 0 2\n", "2: \"own\" stands before the line \"gateways\""},
        {"gateways 5\nown 0 0 2\nversion 2\n", "2: \"own\" has no line \"version 2\" before it"},
        {"version 1\ngateways 5\nown 0 0 2\n", "3: \"own\" has no line \"version 2\" before it"},
        {"version 2\ngateways 5\nown 0 2\n", "3: \"own\" takes three numbers"},
        {"version 2\ngateways 5\nown 0 0 2 2\n", "3: \"own\" takes three numbers"},
        {"version 2\ngateways 5\nown 0 0 x\n", "3: \"x\" is not a number from 0 on"},
        {"version 2\ngateways 5\nown 5 0 2\n", "3: gateway 5 is not below 5 gateways"},
        {"version 2\ngateways 5\nown 4 256 2\n", "3: kind 256 is not 0 to 255"},
        {"version 2\ngateways 5\nown 4 0 1\n", "3: limit 1 is neither 0 nor 2 to 16"},
        {"version 2\ngateways 5\nown 4 255 17\n", "3: limit 17 is neither 0 nor 2 to 16"},
        {"version 2\ngateways 5\nown 4 255 256\n", "3: limit 256 is neither 0 nor 2 to 16"},
        {"version 2\ngateways 5\nown 4 0 2\n\nown 04 0 2\n", "5: gateway 4 has a line \"own\" already, line 3"},
        {"version 2\ngateways 5\nown 4 0 2\n", " there is no line \"limit\""},
    };
    for (size_t i = 0; i < sizeof texts / sizeof texts[0]; i++)
        expect_wrong(texts[i][0], texts[i][1]);
}

/* One link more than there may be: all but the last as in the largest plant. */
static void too_many_links(void)
{
    FILE *f = fopen("many.txt", "w");
    must(f != NULL, "many.txt");
    fprintf(f, "gateways 1024\nlimit 2\n");
    for (int i = 0; i <= MAX_LINKS; i++)
        fprintf(f, "link %d %d\n", i % 1024, (i + 1 + i / 1024) % 1024);
    must(fclose(f) == 0 && rename("many.txt", "plant.txt") == 0, "plant.txt");
    remove("plant.plt");
    int status = pack();
    static char said[MAX_SAID + 1];
    said[load("said", said, MAX_SAID)] = 0;
    bool ok = status == 1 && strcmp(said, "plant.txt:8195: more than 8192 links\n") == 0 && access("plant.plt", F_OK) != 0;
    tally(ok, "8,193 links: status %d, said %s", status, said);
}

/* What is said of each gateway, from any of them on. One of which nothing is said needs no line. */
static void write_own(FILE *f, const char *end, struct rng *r)
{
    int first = rng_below(r, plant.n);
    for (int i = 0; i < plant.n; i++) {
        int v = (first + i) % plant.n, kind = plant.kinds[v], byte = plant.limit_bytes[v];
        if (kind > 0 || byte > 0 || rng_below(r, 4) == 0)
            fprintf(f, "own %d %d %d%s", v, kind, byte, end);
    }
}

/* What a text of the plant may look like: comments, blank lines, the limit early or late, the order in parts. */
static void write_plant(struct rng *r)
{
    bool early = rng_below(r, 2), in_parts = rng_below(r, 2);
    const char *end = rng_below(r, 4) == 0 ? "\r\n" : "\n";
    FILE *f = fopen("plant.txt", "w");
    must(f != NULL, "plant.txt");
    if (early)
        fprintf(f, "# a plant%slimit %d%s%s", end, plant.limit, end, end);
    fprintf(f, "  gateways\t%d # gateways%s", plant.n, end);
    if (plant.version == 2) {
        fprintf(f, "version 2%s", end);
        write_own(f, end, r);
    }
    for (int i = 0; i < plant.m; i++)
        fprintf(f, "link %d %d%s", plant.ends[i][0], plant.ends[i][1], end);
    fprintf(f, "order");
    for (int i = 0; i < plant.n; i++)
        fprintf(f, "%s %d", in_parts && rng_below(r, 8) == 0 ? "\norder" : "", plant.order[i]);
    if (!early)
        fprintf(f, "%slimit %d", end, plant.limit);
    must(fclose(f) == 0, "plant.txt");
}

static void expect_packed(const char *what)
{
    size_t len = plant_write(&plant, file);
    int status = pack();
    size_t got = load("plant.plt", packed, sizeof packed);
    bool same = status == 0 && got == len && memcmp(packed, file, len) == 0;
    bool accepted = plan_groups(packed, got, out, sizeof out) == 0;
    tally(same && accepted && load("said", packed, 1) == 0, "%s, %d gateways, %d links: status %d, %zu bytes", what, plant.n,
          plant.m, status, got);
}

static void no_order(void)
{
    plant_open(&plant, 300, 16);
    plant_link(&plant, 299, 256);
    write_text("gateways 300\nlimit 16\nlink 299 256\n");
    expect_packed("no order");
    plant_open(&plant, 0, 2);
    write_text("gateways 0\nlimit 2\norder\n");
    expect_packed("no gateway");
}

/* No line for any gateway is as good as a line of zeros for each. */
static void nothing_said(void)
{
    plant_open(&plant, 3, 2);
    plant_link(&plant, 0, 2);
    plant.version = 2;
    write_text("version 2\ngateways 3\nlimit 2\nlink 0 2\n");
    expect_packed("version 2 and no more");
    write_text("gateways 3\nlimit 2\nlink 0 2\nversion 2\nown 2 0 0\nown 0 0 0\nown 1 0 0\n");
    expect_packed("version 2 and zeros");
    plant_forget_own(&plant);
    write_text("version 1\ngateways 3\nlimit 2\nlink 0 2\n");
    expect_packed("version 1");
}

static void own_plants(struct rng *r)
{
    for (int i = 0; i < family_turn; i++) {
        family_make_own(family_in_turn(i), &plant, r, rng_between(r, 0, 200));
        write_plant(r);
        expect_packed(family_in_turn(i)->name);
    }
    family_largest(&plant, r, 50, 3, 2, MAX_LINKS);
    any_limits(&plant, r);
    write_plant(r);
    expect_packed("the largest plant with own limits");
}

static void plants(struct rng *r)
{
    for (int i = 0; i < 2 * family_count; i++) {
        family_make(&families[i % family_count], &plant, r, rng_between(r, 0, 300), 0);
        write_plant(r);
        expect_packed(families[i % family_count].name);
    }
    plant_open(&plant, MAX_GATEWAYS, 3);
    family_fill(&plant, r, MAX_LINKS);
    rng_shuffle(r, plant.order, plant.n);
    write_plant(r);
    expect_packed("the largest plant");
}

/* A refused text leaves a plant file that was there as it was. */
static void kept_file(void)
{
    static uint8_t again[MAX_FILE + 1];
    size_t len = load("plant.plt", packed, sizeof packed);
    write_text("gateways 5\nlimit 2\nlink 0 5\n");
    bool refused = pack() == 1;
    tally(refused && load("plant.plt", again, sizeof again) == len && memcmp(again, packed, len) == 0, "the file before");
}

int main(int argc, char **argv)
{
    struct rng r = {10};
    if (argc != 3)
        return 2;
    script = argv[1];
    must(chdir(argv[2]) == 0, argv[2]);
    wrong_texts();
    wrong_own_texts();
    too_many_links();
    no_order();
    nothing_said();
    own_plants(&(struct rng){47});
    plants(&r);
    kept_file();
    return tally_end();
}
