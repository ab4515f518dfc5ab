#include "rng.h"

/* splitmix64 */
uint64_t rng_next(struct rng *r)
{
    uint64_t z = r->state += 0x9e3779b97f4a7c15u;
    z = (z ^ (z >> 30)) * 0xbf58476d1ce4e5b9u;
    z = (z ^ (z >> 27)) * 0x94d049bb133111ebu;
    return z ^ (z >> 31);
}

int rng_below(struct rng *r, int n)
{
    return n == 0 ? 0 : (int)(rng_next(r) % (uint64_t)n);
}

int rng_between(struct rng *r, int low, int high)
{
    return low + rng_below(r, high - low + 1);
}

void rng_shuffle(struct rng *r, int *list, int n)
{
    for (int i = 0; i < n; i++)
        list[i] = i;
    for (int i = n - 1; i > 0; i--) {
        int j = rng_below(r, i + 1);
        int kept = list[i];
        list[i] = list[j];
        list[j] = kept;
    }
}
