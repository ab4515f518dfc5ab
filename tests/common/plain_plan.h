/*
 * What plan_groups does, by the same method, as one writes it in C where nothing is to be proved: for tests/bench, which
 * times one beside the other. It shares no code with the call or with the references of the tests.
 */
#ifndef PLAIN_PLAN_H
#define PLAIN_PLAN_H

#include <stddef.h>
#include <stdint.h>

/* Takes, writes and gives back what plan_groups does, byte for byte. */
uint32_t plain_plan(const uint8_t *file, size_t len, uint8_t *out, size_t out_len);

#endif
