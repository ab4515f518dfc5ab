/* The lists of plain_plan, and its four parts. */
#ifndef PLAIN_WORK_H
#define PLAIN_WORK_H

#include <stdbool.h>
#include <stddef.h>
#include <stdint.h>

enum { MOST = 1024, MOST_LINKS = 8192, MOST_PLACES = 16, NONE = 65535 };

/* One end of a link, in the chain of the gateway at this end. */
struct slot {
    uint16_t to;   /* the gateway at the other end */
    uint16_t next; /* the slot after it in the chain, or NONE */
};

/* Only the first n of each list are ever filled. */
struct work {
    int n, m;
    int version, common; /* of the file, and its T */
    struct slot slot[2 * MOST_LINKS];
    uint16_t first[MOST], last[MOST], degree[MOST]; /* each one's chain, in order of arrival */
    uint16_t order[MOST], at[MOST];                 /* and at which place of the order each one stands */
    uint8_t limit[MOST], room[MOST];                /* the places of each, and how many of them are free */
    uint16_t row[MOST][MOST_PLACES];                /* what each one holds, ascending */
    uint16_t holder[MOST];
    uint16_t from[MOST]; /* who it was seen from, or NONE */
    uint16_t queue[MOST + MOST_PLACES];
    uint16_t looked[MOST]; /* those seen by the search that is on */
    int looks;
    uint32_t moved;
    uint16_t leader[MOST];
};

/* Checks the file and takes from it chains, order and limits; a refusal's number or 0. */
uint32_t plain_take(struct work *w, const uint8_t *file, size_t len);

/* Places all gateways. Those that are seen at the end are the choke set. */
void plain_place(struct work *w);

/* The leader list of the holders. */
void plain_read(struct work *w);

/* Leaders, choke set and number moved, as plan_groups writes them. */
void plain_write(const struct work *w, uint8_t *restrict out);

#endif
