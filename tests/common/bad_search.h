/* A search for plants on which plan_groups is slow, by itself or beside the plain program. */
#ifndef BAD_SEARCH_H
#define BAD_SEARCH_H

#include <stdbool.h>

/*
 * Times the random plants of n gateways from number first on, so many of them; then the worst again with care, and prints
 * ten of these by either measure. False where an answer differs.
 */
bool bad_search(int n, int first, int count);

#endif
