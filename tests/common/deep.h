/* Plants on which the short search goes as deep as it can, or moves many again and again. */
#ifndef DEEP_H
#define DEEP_H

#include "plant.h"

/* What the deepest search for a holder meets. */
enum deep_end {
    PLACE_FREE, /* a neighbour with a place free */
    IN_VAIN     /* no neighbour that is not yet tried; a place is then found by the hub before the last */
};

/*
 * A line of hubs that hold T each: the next hub, one that can move to the next hub, and dead ends, which have no other link.
 * Those that can move come after the dead ends of their hub and before the hub that it holds, so that the search tries them
 * all the way down. One more gateway, at hub 0 alone, comes when all hubs are full: number 0. With T = 2 hub 0 is placed
 * after it, and else hub 1 holds hub 0.
 *
 * For the one more, hubs + 1 searches stand within each other. There can't be more in a plant of so many gateways: each full
 * neighbour on the way holds T of its own. For PLACE_FREE all hubs + 1 move, and for IN_VAIN, from three hubs on, one fewer.
 */
void deep_make(struct plant *p, int hubs, int limit, enum deep_end end);

/* The most hubs that 1,024 gateways allow, which is the most that can be full when one more is placed. */
int deep_most(int limit);

/* At which place of the order the one more stands. */
int deep_place(const struct plant *p);

/*
 * Two or more hubs in a line, T = 2, and between each two a gateway that either can hold. Then gateways come to the two ends
 * by turns, first to hub 0. Each pushes all those between the hubs on by one hub, and the one that came before it to its
 * partner; the next pushes them back. Yet each has its own partner for its second link, with a place free. So each of them
 * moves hubs + 1 by the short search, and nobody but itself by the papers' placing; all other placings move one. There are
 * 2 * hubs + 2 * pairs + 1 gateways.
 */
void swing_make(struct plant *p, int hubs, int pairs);

#endif
