/* Document 01's rules for a plant file, in its turn, and those of 02, for both versions: the number that any bytes give. */
#ifndef FILE_RULES_H
#define FILE_RULES_H

#include "plant.h"

/* The refusal's number for these bytes by themselves. For 0 the plant is filled. */
int file_own_refusal(const uint8_t *file, size_t len, struct plant *p);

/* The same for these bytes and an out of out_len bytes. */
int file_refusal(const uint8_t *file, size_t len, size_t out_len, struct plant *p);

/* The same for a call after so many placings. */
int file_refusal_after(const uint8_t *file, size_t len, uint32_t placings, size_t out_len, struct plant *p);

/* The same for a call that asks why a gateway is alone. */
int file_refusal_why(const uint8_t *file, size_t len, uint32_t gateway, size_t out_len, struct plant *p);

#endif
