/* Large plants of many shapes, of which some may be slow to plan: each with sizes of its own by chance. */
#ifndef BAD_SHAPES_H
#define BAD_SHAPES_H

#include "plant.h"
#include "rng.h"

/* Links a plant opened by quick_open. */
struct bad_shape {
    const char *name;
    void (*link)(struct plant *p, struct rng *r);
};

extern const struct bad_shape bad_shapes[];
extern const int bad_shape_count;

#endif
