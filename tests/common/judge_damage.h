/* Damaged files: the calls give the number that the file's rules give, or a right answer. */
#ifndef JUDGE_DAMAGE_H
#define JUDGE_DAMAGE_H

#include "rng.h"

/*
 * So many files of small plants of that version, each damaged in one way. Five tests for each file, and one for each number
 * that a call can give: enough of them met it.
 */
void judge_damaged(int version, int files, struct rng *r);

#endif
