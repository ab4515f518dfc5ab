/* The most that any packing can cover, by trying every leader list there is. For tiny plants. */
#ifndef BRUTE_H
#define BRUTE_H

#include "plant.h"

enum { MAX_BRUTE = 6 };

/* most[k], for k from 0 to n: the most of the first k of the order that some packing covers. */
void brute_most(const struct plant *p, int *most);

/* Whether the flow gives the same for every k. */
bool brute_agrees(const struct plant *p);

#endif
