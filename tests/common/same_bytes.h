/* Whether plan_groups and plain_plan give the same number and the same bytes, and flow_plan a plan that goes with them. */
#ifndef SAME_BYTES_H
#define SAME_BYTES_H

#include <stdbool.h>
#include <stddef.h>
#include <stdint.h>

/* Calls both with this file and an out of out_len bytes, which is at most what is enough for every plant. */
bool same_bytes(const uint8_t *file, size_t len, size_t out_len);

/*
 * So many small plants, of every family and both versions, and as many damaged files; of flow_plan the plants alone. Prints
 * what was found, or the first plant on which they differ.
 */
bool same_on_small(int plants);

#endif
