/* Random numbers from a fixed seed, the same in every run. */
#ifndef RNG_H
#define RNG_H

#include <stdint.h>

struct rng {
    uint64_t state;
};

uint64_t rng_next(struct rng *r);

/* 0 to n - 1; 0 where n is 0. */
int rng_below(struct rng *r, int n);

/* low to high, both included. */
int rng_between(struct rng *r, int low, int high);

/* Puts 0 to n - 1 into list in random order. */
void rng_shuffle(struct rng *r, int *list, int n);

#endif
