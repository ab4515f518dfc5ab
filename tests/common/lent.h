/* The calls on areas that are watched: whatever they touch outside them, or must not write, is noticed. */
#ifndef LENT_H
#define LENT_H

#include "answer.h"
#include "check_rules.h"
#include "rng.h"

enum { MAX_LENT = 1 << 18, MAX_OUT = 8192 };

/* Which end of a lent area lies at memory that cannot be touched. The other end has guard bytes. */
enum side { AT_START, AT_END };

/* One of the two by chance. */
enum side lent_side(struct rng *r);

struct outcome {
    uint32_t number;
    const char *fault;    /* NULL, or what the call did that it must not do */
    uint8_t out[MAX_OUT]; /* the out area after the call */
};

/* Calls plan_groups with a copy of the file and an out area of out_len bytes. */
void lent_call(const uint8_t *file, size_t len, size_t out_len, enum side side, struct outcome *o);

/* Calls plan_groups_after in the same way. */
void lent_call_after(const uint8_t *file, size_t len, uint32_t placings, size_t out_len, enum side side, struct outcome *o);

/* Calls plan_groups_recursive in the same way. */
void lent_call_short(const uint8_t *file, size_t len, size_t out_len, enum side side, struct outcome *o);

/* Calls why_alone in the same way. */
void lent_call_why(const uint8_t *file, size_t len, uint32_t gateway, size_t out_len, enum side side, struct outcome *o);

/* Calls check_groups with copies of the three areas. It gives no bytes: the outcome's out stays as it was. */
void lent_check(const struct handed *h, enum side side, struct outcome *o);

/*
 * The calls for a plant, with an out area just long enough; the second after k placings, the third by the short search, the
 * fourth for a gateway.
 */
void lent_plan(const struct plant *p, enum side side, struct outcome *o);
void lent_plan_after(const struct plant *p, int k, enum side side, struct outcome *o);
void lent_plan_short(const struct plant *p, enum side side, struct outcome *o);
void lent_why(const struct plant *p, uint32_t gateway, enum side side, struct outcome *o);

/* The answer that a plan for the plant gave: NULL, or why there is none. */
const char *lent_answer(const struct plant *p, const struct outcome *o, struct answer *a);

#endif
