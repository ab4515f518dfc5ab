/* A gateway's own limit by document 02 (change 8), from the two bytes that a file of version 2 has for it. */
#ifndef OWN_LIMIT_H
#define OWN_LIMIT_H

#include <stdbool.h>

/* Whether a limit byte is none that a file may have. */
bool own_limit_refused(int limit_byte);

/* For a limit byte that a file may have, in a plant of that T. */
int own_limit(int t, int kind, int limit_byte);

#endif
