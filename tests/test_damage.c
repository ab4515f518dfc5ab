/* Damaged files of version 1 by the thousand. */
#include "judge_damage.h"
#include "tally.h"

int main(void)
{
    struct rng r = {4};
    judge_damaged(1, 12000, &r);
    return tally_end();
}
