/* Whether some packing covers a set of gateways, by trying every leader list along links. For small plants. */
#ifndef BRUTE_COVER_H
#define BRUTE_COVER_H

#include "plant.h"

/* Whether there are few enough lists to try. */
bool brute_cover_can_try(const struct plant *p, const int *set, int count);

/* Whether a packing covers all of the set. */
bool brute_covers(const struct plant *p, const int *set, int count);

#endif
