/* The listing of document 01, "The plant file and the listing", for an answer. */
#ifndef LISTING_TEXT_H
#define LISTING_TEXT_H

#include "answer.h"

enum { MAX_TEXT = 1 << 16 };

/* Writes the listing to text, of MAX_TEXT places, and returns its length. */
size_t listing_text(const struct plant *p, const struct answer *a, char *text);

#endif
