/* Damaged files of version 2 by the thousand, also such as become files of version 1. */
#include "judge_damage.h"
#include "tally.h"

int main(void)
{
    struct rng r = {42};
    judge_damaged(2, 18000, &r);
    return tally_end();
}
