/* The two sets that say why a gateway is alone, as why_alone writes them or as the papers' walk gives them. */
#ifndef WHY_H
#define WHY_H

#include "plant.h"

struct why {
    int a, b; /* how many gateways the first and the second set have */
    int first[MAX_GATEWAYS], second[MAX_GATEWAYS];
};

/* The bytes that the two counts at their front stand for. */
size_t why_size(const uint8_t *out);

/* What these bytes say; false where a count is above n, as no set's is. */
bool why_read(struct why *w, int n, const uint8_t *out);

/* The sets of v, which nobody holds after the last placing, by the choke set's walk from v only. */
void why_expect(const struct plant *p, const int *holder, int v, struct why *w);

bool why_same(const struct why *w, const struct why *x);

#endif
