#define _DEFAULT_SOURCE /* for MAP_ANONYMOUS */
#include "lent.h"

#include <stdio.h>
#include <stdlib.h>
#include <string.h>
#include <sys/mman.h>
#include <unistd.h>

#include "plan_groups.h"
#include "why.h"

enum { GUARDS = 64, GUARD = 0xC3, ROOMS = 3 };

enum side lent_side(struct rng *r)
{
    return rng_below(r, 2) == 0 ? AT_START : AT_END;
}

/* A part of a room: at one end it meets an untouchable page, at the other it has guard bytes. */
struct area {
    uint8_t *at;
    size_t len;
    enum side side;
};

/* MAX_LENT bytes between two pages that cannot be touched. */
static uint8_t *open_room(void)
{
    size_t page = (size_t)sysconf(_SC_PAGESIZE);
    uint8_t *all = mmap(NULL, MAX_LENT + 2 * page, PROT_NONE, MAP_PRIVATE | MAP_ANONYMOUS, -1, 0);
    if (all == MAP_FAILED || mprotect(all + page, MAX_LENT, PROT_READ | PROT_WRITE) != 0) {
        perror("no memory for the lent areas");
        exit(2);
    }
    return all + page;
}

/* One of the rooms, opened when it is first asked for. */
static uint8_t *room(int which)
{
    static uint8_t *rooms[ROOMS];
    if (rooms[which] == NULL)
        rooms[which] = open_room();
    return rooms[which];
}

static uint8_t *guards_of(const struct area *a)
{
    return a->side == AT_START ? a->at + a->len : a->at - GUARDS;
}

static struct area lend(int which, size_t len, enum side side)
{
    struct area a = {side == AT_START ? room(which) : room(which) + MAX_LENT - len, len, side};
    memset(guards_of(&a), GUARD, GUARDS);
    return a;
}

static struct area lend_copy(int which, const uint8_t *bytes, size_t len, enum side side)
{
    struct area a = lend(which, len, side);
    if (len > 0)
        memcpy(a.at, bytes, len);
    return a;
}

static bool guards_hold(const struct area *a)
{
    const uint8_t *guard = guards_of(a);
    for (int i = 0; i < GUARDS; i++)
        if (guard[i] != GUARD)
            return false;
    return true;
}

/* Whether an area that is only read, and what lies beside it, is as it was lent. */
static bool is_unchanged(const struct area *a, const uint8_t *bytes)
{
    return guards_hold(a) && (a->len == 0 || memcmp(a->at, bytes, a->len) == 0);
}

static const char file_changed[] = "the file's bytes changed, or bytes beside them";

/* What stands in the out area before the call; it changes from place to place, as no answer does. */
static uint8_t filler(size_t i)
{
    return (uint8_t)(0x85 + 31 * i);
}

static bool unwritten_from(const struct area *out, size_t from)
{
    for (size_t i = from; i < out->len; i++)
        if (out->at[i] != filler(i))
            return false;
    return true;
}

/* The two areas of one call that writes. */
struct lending {
    struct area in, out;
};

static struct lending lend_both(const uint8_t *file, size_t len, size_t out_len, enum side side)
{
    struct lending l = {lend_copy(0, file, len, side), lend(1, out_len, side)};
    for (size_t i = 0; i < out_len; i++)
        l.out.at[i] = filler(i);
    return l;
}

/* written is how many bytes the answer has; a refused call has none. */
static const char *fault_of(const struct lending *l, const uint8_t *file, size_t written)
{
    if (!is_unchanged(&l->in, file))
        return file_changed;
    if (!guards_hold(&l->out))
        return "bytes beside the out area changed";
    if (!unwritten_from(&l->out, written))
        return written > 0 ? "bytes past the answer changed" : "a refused call wrote";
    return NULL;
}

/* What the call gave, what it did that it must not do, and a copy of the out area. */
static void look(const struct lending *l, const uint8_t *file, uint32_t number, size_t written, struct outcome *o)
{
    o->number = number;
    o->fault = fault_of(l, file, written);
    memcpy(o->out, l->out.at, l->out.len);
}

static void look_at_plan(const struct lending *l, const uint8_t *file, uint32_t number, struct outcome *o)
{
    look(l, file, number, number == 0 ? answer_size(get_number(file + 5)) : 0, o);
}

void lent_call(const uint8_t *file, size_t len, size_t out_len, enum side side, struct outcome *o)
{
    struct lending l = lend_both(file, len, out_len, side);
    look_at_plan(&l, file, plan_groups(l.in.at, len, l.out.at, out_len), o);
}

void lent_call_after(const uint8_t *file, size_t len, uint32_t placings, size_t out_len, enum side side, struct outcome *o)
{
    struct lending l = lend_both(file, len, out_len, side);
    look_at_plan(&l, file, plan_groups_after(l.in.at, len, placings, l.out.at, out_len), o);
}

void lent_call_short(const uint8_t *file, size_t len, size_t out_len, enum side side, struct outcome *o)
{
    struct lending l = lend_both(file, len, out_len, side);
    look_at_plan(&l, file, plan_groups_recursive(l.in.at, len, l.out.at, out_len), o);
}

void lent_call_why(const uint8_t *file, size_t len, uint32_t gateway, size_t out_len, enum side side, struct outcome *o)
{
    struct lending l = lend_both(file, len, out_len, side);
    uint32_t number = why_alone(l.in.at, len, gateway, l.out.at, out_len);
    look(&l, file, number, number == 0 && out_len >= 4 ? why_size(l.out.at) : 0, o);
}

void lent_check(const struct handed *h, enum side side, struct outcome *o)
{
    struct area file = lend_copy(0, h->file, h->len, side), leaders = lend_copy(1, h->leaders, h->leaders_len, side),
                choke = lend_copy(2, h->choke, h->choke_len, side);
    o->number = check_groups(file.at, h->len, leaders.at, h->leaders_len, choke.at, h->choke_len);
    o->fault = NULL;
    if (!is_unchanged(&file, h->file))
        o->fault = file_changed;
    else if (!is_unchanged(&leaders, h->leaders))
        o->fault = "the leader list changed, or bytes beside it";
    else if (!is_unchanged(&choke, h->choke))
        o->fault = "the choke list changed, or bytes beside it";
}

void lent_plan(const struct plant *p, enum side side, struct outcome *o)
{
    static uint8_t file[MAX_FILE];
    size_t len = plant_write(p, file);
    lent_call(file, len, PLAN_GROUPS_OUT(p->n), side, o);
}

void lent_plan_after(const struct plant *p, int k, enum side side, struct outcome *o)
{
    static uint8_t file[MAX_FILE];
    size_t len = plant_write(p, file);
    lent_call_after(file, len, (uint32_t)k, PLAN_GROUPS_OUT(p->n), side, o);
}

void lent_plan_short(const struct plant *p, enum side side, struct outcome *o)
{
    static uint8_t file[MAX_FILE];
    size_t len = plant_write(p, file);
    lent_call_short(file, len, PLAN_GROUPS_OUT(p->n), side, o);
}

void lent_why(const struct plant *p, uint32_t gateway, enum side side, struct outcome *o)
{
    static uint8_t file[MAX_FILE];
    size_t len = plant_write(p, file);
    lent_call_why(file, len, gateway, WHY_ALONE_OUT(p->n), side, o);
}

const char *lent_answer(const struct plant *p, const struct outcome *o, struct answer *a)
{
    if (o->fault != NULL)
        return o->fault;
    if (o->number != 0)
        return "a plant was refused";
    answer_read(a, p->n, o->out);
    return NULL;
}
