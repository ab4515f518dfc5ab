/* Random plants for the search for slow ones: each has a number and is the same whenever it is made. */
#ifndef BAD_PLANTS_H
#define BAD_PLANTS_H

#include "plant.h"

/* Makes the plant of that number, of n gateways or a few fewer; gives the name of its shape. */
const char *bad_make(struct plant *p, int n, int number);

#endif
