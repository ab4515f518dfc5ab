/* Document 02's rules for lists by any hand (change 6), over bytes: which number check_groups gives. */
#ifndef CHECK_RULES_H
#define CHECK_RULES_H

#include "plant.h"

/* What check_groups is handed: three areas. */
struct handed {
    const uint8_t *file;
    size_t len;
    const uint8_t *leaders;
    size_t leaders_len;
    const uint8_t *choke;
    size_t choke_len;
};

/* A file with the lists as plan_groups writes them for n gateways. */
struct handed handed_of(const uint8_t *file, size_t len, int n, const uint8_t *out);

/* The refusal's number for these bytes. */
int check_refusal(const struct handed *h);

#endif
