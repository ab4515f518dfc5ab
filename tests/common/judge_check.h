/* Lists by any hand: the answers of check_groups held to the tests' own checker. */
#ifndef JUDGE_CHECK_H
#define JUDGE_CHECK_H

#include "answer.h"
#include "check_rules.h"
#include "rng.h"

/* One test: at a side by chance check_groups gives the number that the rules give. Returns the rules' number. */
int judge_handed(const struct handed *h, struct rng *r, const char *name, int which);

/* The same for a plant's file and two lists of n entries. */
int judge_lists(const struct plant *p, const int *leader, const int *choke, struct rng *r, const char *name, int which);

/* Two tests, at either side: check_groups and the rules both give this number. Whether they passed. */
bool judge_handed_number(int number, const struct handed *h, const char *name);

/* The same for a plant's file and two lists of n entries. A plant that fails is shown. */
void judge_number(int number, const struct plant *p, const int *leader, const int *choke, const char *name);

#endif
