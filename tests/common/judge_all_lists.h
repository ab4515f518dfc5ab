/*
 * A small plant whole: every leader list of the numbers 0 to n and 65535 with every choke list of the bytes 0, 1 and 2. The
 * number is always the rules' own; what is accepted covers as many as any list of them all that is a packing, and each that
 * covers so many is accepted with some choke list.
 */
#ifndef JUDGE_ALL_LISTS_H
#define JUDGE_ALL_LISTS_H

#include "plant.h"

/* Three tests for a plant of up to five gateways; few: a list that is no packing has three choke lists only. */
void judge_all_lists(const struct plant *p, const char *name, int which, bool few);

#endif
