/* Counts tests and says which failed. */
#ifndef TALLY_H
#define TALLY_H

#include <stdbool.h>

/* One test. Where it failed, the words say which it was. */
void tally(bool ok, const char *words, ...) __attribute__((format(printf, 2, 3)));

/* Prints 'N passed, M failed'; the program's exit status. */
int tally_end(void);

#endif
