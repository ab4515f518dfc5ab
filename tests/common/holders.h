/* Holders, whichever search gave them: holder[v] is who holds v, or NOBODY. */
#ifndef HOLDERS_H
#define HOLDERS_H

#include <stdbool.h>

enum { NOBODY = -1 };

/* How many of n gateways u holds. */
int holders_count(int n, const int *holder, int u);

/* At how many of n gateways the holders differ. */
int holders_changed(int n, const int *before, const int *after);

/* Whether the same of n gateways are held, by whomever. */
bool holders_same_held(int n, const int *a, const int *b);

#endif
