/* Plants whose placings or walks go far, and how far is known. */
#ifndef CHAINS_H
#define CHAINS_H

#include "plant.h"

/*
 * Hubs with T leaves each. The first leaf of a hub can move to the hub after it; of the last hub either of the first two
 * can move to the other. The leaves are placed first. Then comes one more, at hub 0 alone: one leaf of each hub must move.
 * The hubs come last, and each finds a place at its first leaf. There are hubs * (limit + 1) + 1 gateways.
 */
void chain_make(struct plant *p, int hubs, int limit);

/* The same but that no leaf of the last hub can move, so that nobody can and the one more is left: the last gateway. */
void chain_make_full(struct plant *p, int hubs, int limit);

/*
 * Two to that power of hubs in a line, T leaves between each two neighbours, and T more at hub 0 alone. Leaves that join
 * two halves of s hubs make one of each hub of a half move, so that each moves s; those at hub 0 come after them and move
 * as many as there are hubs. The hubs come last and find a place at once. There are hubs * (limit + 1) gateways.
 */
void line_make(struct plant *p, int power, int limit);

#endif
