#define _POSIX_C_SOURCE 200809L
#include "stopwatch.h"

#include <time.h>

/* The process's own time, so that it does not count what else the machine does. */
static double now(void)
{
    struct timespec t;
    clock_gettime(CLOCK_PROCESS_CPUTIME_ID, &t);
    return (double)t.tv_sec + 1e-9 * (double)t.tv_nsec;
}

/*
 * The clock is asked after one turn, two more, four more, and so on: to ask it takes as long as a small plant. The fastest
 * part counts that is no short one: the first turns after another work, or after another program had the processor, are
 * slower, for some works far more than for others.
 */
static double one_turn(void (*work)(void), double share)
{
    double start = now(), before = start, least = 0;
    for (int turns = 1;; turns *= 2) {
        for (int i = 0; i < turns; i++)
            work();
        double after = now(), part = after - before;
        if (part >= share / 8 && (least == 0 || part / turns < least))
            least = part / turns;
        if (after - start >= share)
            return least > 0 ? least : part / turns;
        before = after;
    }
}

void stopwatch(int count, void (*const *works)(void), int rounds, double share, double *seconds)
{
    for (int round = 0; round < rounds; round++) {
        for (int j = 0; j < count; j++) {
            int i = round % 2 == 0 ? j : count - 1 - j;
            double taken = one_turn(works[i], share);
            if (round == 0 || taken < seconds[i])
                seconds[i] = taken;
        }
    }
}
