/* Every order of n gateways, one after the other. */
#ifndef ORDERS_H
#define ORDERS_H

#include <stdbool.h>

/* The next order in the dictionary's sense; false after the last. */
bool order_next(int *order, int n);

#endif
