/* Document 02's short search (change 7), as its sentences say: two functions that call each other. The plain reference. */
#ifndef SHORT_SEARCH_H
#define SHORT_SEARCH_H

#include "holders.h"
#include "plant.h"

/* What one placing does. */
struct placed {
    int moved; /* gateways whose holder changed, the new one included; 0 where it is left */
    int depth; /* how many searches for a holder stood within each other at most */
};

/* Places the first k of the order; holder[v] is who then holds v, or NOBODY. Returns the number moved, over all. */
long short_first(const struct plant *p, int k, int *holder);

/* Places v beside those held. */
struct placed short_one(const struct plant *p, int v, int *holder);

/* each[i], for each place i of the order: what that placing does. */
void short_each(const struct plant *p, struct placed *each);

#endif
