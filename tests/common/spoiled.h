/* A small plant file and lists for it to spoil, and the number that the calls must then give. */
#ifndef SPOILED_H
#define SPOILED_H

#include "plant.h"

/* What base makes: N gateways and LINKS links 0-1, 0-2, 1-2, 0-3, 1-3. The last two have no link. */
enum { N = 6, LINKS = 5, MORE = 4096 };

extern uint8_t file[MAX_FILE + MORE];
extern size_t len, out_len;
extern uint32_t placings; /* for plan_groups_after */
extern uint32_t gateway;  /* for why_alone */
extern size_t why_len;    /* its out_len */

/* For check_groups. */
extern uint8_t leaders[2 * MORE], choke[MORE];
extern size_t leaders_len, choke_len;

/* Where a link's or the order's numbers stand in the file, and in one of version 2 a gateway's kind and limit byte. */
uint8_t *link_at(int i);
uint8_t *order_at(int i);
uint8_t *own_at(int v);

void put_link(int i, int a, int b);

void put_leader(int v, int number);

/*
 * A file of any n, T and m with the lengths that fit: links 0-1, 0-2, 1-2, 0-3, .. and order 0, 1, .. There are n placings,
 * and the gateway asked for is the last, which is alone where it has no link. In the leader list all that have a link are in
 * groups of two or three, so that no choke set is needed.
 */
void whole(int n, int limit, int m);

/* The same in version 2, where all kinds and limit bytes are zero. */
void whole_2(int n, int limit, int m);

/* The accepted file that most examples spoil, and the same in version 2. */
void base(void);
void base_2(void);

/* Two tests, at either side of the lent areas: plan_groups_after and the rules both give the number. */
void expect_after(int number, const char *what, int which);

/* Four tests more: plan_groups and plan_groups_recursive give it as well. */
void expect_plan(int number, const char *what, int which);

/* Two tests: why_alone and the rules both give the number. */
void expect_why(int number, const char *what, int which);

/* Two tests: check_groups and the rules both give the number. */
void expect_check(int number, const char *what, int which);

/* All five calls give it. */
void expect(int number, const char *what, int which);

#endif
