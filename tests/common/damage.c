#include "damage.h"

#include <string.h>

/* One to four bytes become anything. */
static void flip(struct damaged *d, struct rng *r)
{
    for (int times = rng_between(r, 1, 4); times > 0 && d->len > 0; times--)
        d->file[rng_below(r, (int)d->len)] ^= (uint8_t)rng_between(r, 1, 255);
}

static void cut(struct damaged *d, struct rng *r)
{
    d->len -= (size_t)rng_below(r, (int)d->len + 1);
}

static void extend(struct damaged *d, struct rng *r)
{
    for (int more = rng_between(r, 1, 40); more > 0; more--)
        d->file[d->len++] = (uint8_t)rng_below(r, 256);
}

static void remove_byte(struct damaged *d, struct rng *r)
{
    size_t at = (size_t)rng_below(r, (int)d->len);
    memmove(d->file + at, d->file + at + 1, d->len - at - 1);
    d->len--;
}

static void insert_byte(struct damaged *d, struct rng *r)
{
    size_t at = (size_t)rng_below(r, (int)d->len);
    memmove(d->file + at + 1, d->file + at, d->len - at);
    d->file[at] = (uint8_t)rng_below(r, 256);
    d->len++;
}

/* A number of the header or the body becomes one near a bound. */
static void bound(struct damaged *d, struct rng *r)
{
    static const int header[] = {3, 5, 7, 8};
    int n = get_number(d->file + 5);
    const int values[] = {0, 1, 2, 16, 17, n - 1, n, n + 1, 1024, 1025, 8192, 8193, 65535};
    int body = ((int)d->len - HEADER) / 2;
    int at = body == 0 || rng_below(r, 3) == 0 ? header[rng_below(r, 4)] : HEADER + 2 * rng_below(r, body);
    put_number(d->file + at, values[rng_below(r, 13)] & 65535);
}

/* One number of the body is copied over another: links and orders that repeat. */
static void copy_numbers(struct damaged *d, struct rng *r)
{
    int body = ((int)d->len - HEADER) / 4;
    if (body < 2)
        return;
    int from = HEADER + 4 * rng_below(r, body), to = HEADER + 4 * rng_below(r, body);
    memcpy(d->file + to, d->file + from, rng_below(r, 2) == 0 ? 4 : 2);
}

/* Two links or two numbers of the order change places, which is often no damage. */
static void swap_numbers(struct damaged *d, struct rng *r)
{
    int body = ((int)d->len - HEADER) / 2;
    if (body < 2)
        return;
    uint8_t *a = d->file + HEADER + 2 * rng_below(r, body), *b = d->file + HEADER + 2 * rng_below(r, body);
    int kept = get_number(a);
    put_number(a, get_number(b));
    put_number(b, kept);
}

/* Another m or n, and the length that the header then gives. */
static void refit(struct damaged *d, struct rng *r)
{
    size_t before = d->len;
    d->file[rng_below(r, 2) == 0 ? 5 : 8] ^= (uint8_t)rng_between(r, 1, 7);
    d->len = plant_file_size(get_number(d->file + 3), get_number(d->file + 5), get_number(d->file + 8));
    for (size_t i = before; i < d->len; i++)
        d->file[i] = (uint8_t)(i % 2 == 0 ? rng_below(r, 8) : 0);
}

static void noise(struct damaged *d, struct rng *r)
{
    d->len = (size_t)rng_below(r, 60);
    for (size_t i = 0; i < d->len; i++)
        d->file[i] = (uint8_t)rng_below(r, 256);
    if (d->len > 3 && rng_below(r, 2) == 0)
        memcpy(d->file, "PLT", 3);
}

/* Where the limit byte of some gateway stands in a file of version 2; at its last byte where there is none. */
static uint8_t *some_limit_byte(struct damaged *d, struct rng *r)
{
    int n = get_number(d->file + 5);
    return d->file + d->len - 1 - 2 * rng_below(r, n);
}

/* A limit byte near a bound, which for some is no damage. */
static void bound_limit(struct damaged *d, struct rng *r)
{
    static const uint8_t values[] = {0, 1, 1, 2, 15, 16, 17, 17, 18, 32, 127, 128, 254, 255};
    *some_limit_byte(d, r) = values[rng_below(r, sizeof values)];
}

/* A kind and a limit byte change places. */
static void turn_own(struct damaged *d, struct rng *r)
{
    uint8_t *at = some_limit_byte(d, r), kept = *at;
    *at = at[-1];
    at[-1] = kept;
}

/* Every kind and limit byte becomes another that a file may have, which is no damage. */
static void any_own(struct damaged *d, struct rng *r)
{
    uint8_t *at = d->file + d->len;
    for (int v = get_number(d->file + 5); v > 0; v--) {
        *--at = (uint8_t)(rng_below(r, 2) == 0 ? 0 : rng_between(r, 2, MAX_LIMIT));
        *--at = (uint8_t)rng_below(r, 256);
    }
}

/* Another version, and all else as it is. */
static void other_version(struct damaged *d, struct rng *r)
{
    static const int versions[] = {0, 1, 1, 1, 3, 257, 258, 512};
    put_number(d->file + 3, versions[rng_below(r, 8)]);
}

/* Version 1, and without what only version 2 has, or with part of it. */
static void to_version_1(struct damaged *d, struct rng *r)
{
    int n = get_number(d->file + 5);
    put_number(d->file + 3, 1);
    d->len -= (size_t)(rng_below(r, 3) > 0 ? 2 * n : rng_below(r, 2 * n + 1));
}

/* Version 2 without what it has more than version 1, or with part of it. */
static void cut_own(struct damaged *d, struct rng *r)
{
    int n = get_number(d->file + 5);
    d->len -= (size_t)(rng_below(r, 3) > 0 ? 2 * n : rng_below(r, 2 * n + 1));
}

void damage(struct damaged *d, int way, struct rng *r)
{
    static void (*const ways[DAMAGE_WAYS_2])(struct damaged *, struct rng *) = {
        flip, flip, cut, extend, remove_byte, insert_byte, bound, bound, copy_numbers, swap_numbers, refit, noise,
        bound_limit, turn_own, any_own, other_version, to_version_1, cut_own,
    };
    ways[way](d, r);
}
