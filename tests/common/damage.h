/* A plant file, and ways to damage it. */
#ifndef DAMAGE_H
#define DAMAGE_H

#include "plant.h"
#include "rng.h"

/* The ways for any file, and those with the further ones for a file of version 2. */
enum { DAMAGE_ROOM = 8192, DAMAGE_WAYS = 12, DAMAGE_WAYS_2 = 18 };

struct damaged {
    uint8_t file[DAMAGE_ROOM];
    size_t len;
};

/* Damages a plant's file in the way of that number; some ways now and then do no damage. */
void damage(struct damaged *d, int way, struct rng *r);

#endif
