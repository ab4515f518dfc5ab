/* Leaders, choke set and number moved of a plant, as the call writes them or as a reference works them out. */
#ifndef ANSWER_H
#define ANSWER_H

#include "plant.h"

enum { ALONE = 65535 };

struct answer {
    int leader[MAX_GATEWAYS];
    int choke[MAX_GATEWAYS];
    long moved; /* gateways whose holder changed, summed over the placings */
};

/* The bytes that the call writes for n gateways. */
size_t answer_size(int n);

/* What these bytes say. */
void answer_read(struct answer *a, int n, const uint8_t *out);

/* Two lists as bytes: the first 3n of what the call writes. */
void answer_write(int n, const int *leader, const int *choke, uint8_t *out);

/* How many of the first k of the order are covered. */
int answer_covered(const struct plant *p, const int *leader, int k);

/* NULL, or which list differs among the first n, or that the number does. */
const char *answer_differs(const struct answer *a, const struct answer *b, int n);

#endif
