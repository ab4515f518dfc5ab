/*
 * Damaged lists by the thousand, and damaged files with them: from lists that are accepted one to three entries, bytes or
 * lengths are changed, and check_groups gives the number that the rules give.
 */
#include <string.h>

#include "families.h"
#include "judge.h"
#include "judge_check.h"
#include "moves.h"
#include "tally.h"

enum { TRIALS = 60000, ROOM = 256, FILE_ROOM = 4096, NUMBERS = 34, WAYS = 14 };

static struct plant plant;
static struct answer good;

/* What is handed in, and damaged. */
static uint8_t file[FILE_ROOM], leaders[ROOM], choke[ROOM];
static size_t len, leaders_len, choke_len;

static int any_gateway(struct rng *r)
{
    return rng_below(r, plant.n);
}

static void put_leader(int v, int number)
{
    put_number(leaders + 2 * v, number);
}

static int get_leader(int v)
{
    return get_number(leaders + 2 * v);
}

static void name_another(struct rng *r)
{
    put_leader(any_gateway(r), any_gateway(r));
}

static void name_oneself(struct rng *r)
{
    int v = any_gateway(r);
    put_leader(v, v);
}

static void leave(struct rng *r)
{
    put_leader(any_gateway(r), ALONE);
}

/* One that is alone joins, or changes, to where a neighbour is. */
static void follow(struct rng *r)
{
    if (plant.m == 0)
        return;
    const int *ends = plant.ends[rng_below(r, plant.m)];
    int side = rng_below(r, 2);
    put_leader(ends[side], get_leader(ends[1 - side]));
}

/* A number near a bound, or one that differs in one bit. */
static void bound(struct rng *r)
{
    int v = any_gateway(r), n = plant.n, bit = 1 << rng_below(r, 16);
    const int values[] = {n, n + 1, n - 1, 256, 1024, 32768, 65534, get_leader(v) ^ bit};
    put_leader(v, values[rng_below(r, 8)]);
}

/* The bytes of an entry change places. */
static void turn_bytes(struct rng *r)
{
    int v = any_gateway(r), number = get_leader(v);
    put_leader(v, number / 256 + number % 256 * 256);
}

/* The other one of a group of two leads, which is no damage. */
static void turn_pair(struct rng *r)
{
    int v = any_gateway(r), u = get_leader(v), members = 0;
    for (int w = 0; w < plant.n; w++)
        members += w != u && get_leader(w) == u;
    if (u < plant.n && u != v && members == 1) {
        put_leader(u, v);
        put_leader(v, v);
    }
}

/* Another grouping that covers as many, or fewer by one or two. */
static void regroup(struct rng *r)
{
    int leader[MAX_GATEWAYS];
    memcpy(leader, good.leader, sizeof leader);
    moves_make(&plant, r, plant.n, leader);
    if (rng_below(r, 3) == 0)
        moves_leave(&plant, r, leader);
    for (int v = 0; v < plant.n; v++)
        put_leader(v, leader[v]);
}

static void turn_choke(struct rng *r)
{
    choke[any_gateway(r)] ^= 1;
}

static void any_choke(struct rng *r)
{
    static const uint8_t bytes[] = {0, 1, 2, 3, 128, 255};
    choke[any_gateway(r)] = bytes[rng_below(r, 6)];
}

/* Longer lists, with anything past n. */
static void past(struct rng *r)
{
    for (int v = plant.n; v < ROOM / 2; v++) {
        const int entries[] = {any_gateway(r), v, ALONE, rng_below(r, 65536)};
        put_leader(v, entries[rng_below(r, 4)]);
        choke[v] = (uint8_t)rng_below(r, rng_below(r, 2) == 0 ? 2 : 256);
    }
    leaders_len += (size_t)rng_below(r, 40);
    choke_len += (size_t)rng_below(r, 20);
}

/* Mostly not below what is just enough. */
static size_t any_length(struct rng *r, int enough)
{
    return (size_t)(rng_below(r, 4) > 0 ? enough + rng_below(r, 20) : rng_below(r, enough));
}

static void lengths(struct rng *r)
{
    leaders_len = any_length(r, 2 * plant.n);
    choke_len = any_length(r, plant.n);
}

static void file_byte(struct rng *r)
{
    file[rng_below(r, (int)len)] ^= (uint8_t)(1 << rng_below(r, 8));
}

/* Two numbers of the order change places, which is no damage. */
static void turn_order(struct rng *r)
{
    uint8_t *order = file + HEADER + 4 * plant.m, *a = order + 2 * any_gateway(r), *b = order + 2 * any_gateway(r);
    int kept = get_number(a);
    put_number(a, get_number(b));
    put_number(b, kept);
}

static void (*const ways[WAYS])(struct rng *) = {
    name_another, name_oneself, leave, follow, bound, turn_bytes, turn_pair, regroup, turn_choke, any_choke, past, lengths,
    file_byte, turn_order,
};

/* A plant, and the lists of the papers' rules for it. */
static void begin(struct rng *r)
{
    const struct family *f = rng_below(r, 3) == 0 ? &scarce : &families[rng_below(r, family_count)];
    uint8_t out[3 * ROOM];
    family_make(f, &plant, r, rng_between(r, 1, 20), 0);
    judge_expect(&plant, plant.n, &good);
    answer_write(plant.n, good.leader, good.choke, out);
    len = plant_write(&plant, file);
    leaders_len = 2 * (size_t)plant.n;
    choke_len = (size_t)plant.n;
    memset(leaders, 0, sizeof leaders);
    memset(choke, 0, sizeof choke);
    memcpy(leaders, out, leaders_len);
    memcpy(choke, out + leaders_len, choke_len);
}

int main(void)
{
    struct rng r = {28};
    int seen[NUMBERS] = {0}, files = 0;
    for (int i = 0; i < TRIALS; i++) {
        begin(&r);
        for (int times = rng_between(&r, 1, 3); times > 0; times--)
            ways[rng_below(&r, WAYS)](&r);
        seen[judge_handed(&(struct handed){file, len, leaders, leaders_len, choke, choke_len}, &r, "damaged lists", i)]++;
    }
    for (int number = 1; number < 31; number++)
        files += seen[number];
    tally(seen[0] >= 10000, "only %d are accepted", seen[0]);
    tally(seen[31] >= 10000, "only %d are refused with 31", seen[31]);
    tally(seen[32] >= 5000, "only %d are refused with 32", seen[32]);
    tally(files >= 3000, "only %d are refused for their file", files);
    return tally_end();
}
