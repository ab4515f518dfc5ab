/* How long some works take, timed side by side. */
#ifndef STOPWATCH_H
#define STOPWATCH_H

/*
 * seconds[i] is what one turn of works[i] takes, at the least: there are so many rounds, in each of which every work has its
 * share of at least that many seconds, and at least one turn; a share is timed in parts. The works go by turns, so that what
 * slows the machine down for a while meets all of them, and each second round the other way round, so that none always comes
 * after the same other one.
 */
void stopwatch(int count, void (*const *works)(void), int rounds, double share, double *seconds);

#endif
