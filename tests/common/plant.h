/* A plant, and the plant file of version 1 or 2 that describes it. */
#ifndef PLANT_H
#define PLANT_H

#include <stdbool.h>
#include <stddef.h>
#include <stdint.h>

enum {
    MAX_GATEWAYS = 1024,
    MAX_LINKS = 8192,
    MAX_LIMIT = 16,
    HEADER = 10,
    MAX_FILE = HEADER + 4 * MAX_LINKS + 4 * MAX_GATEWAYS /* of version 2 */
};

struct plant {
    int n;
    int limit; /* T */
    int m;
    int ends[MAX_LINKS][2]; /* in order of arrival */
    int order[MAX_GATEWAYS];
    int limits[MAX_GATEWAYS]; /* each one's own: what it can hold, and lead */
    int version;              /* of its file; only version 2 has a kind and a limit byte for each gateway */
    uint8_t kinds[MAX_GATEWAYS], limit_bytes[MAX_GATEWAYS];
};

/* n gateways, no link, order 0, 1, .., version 1: each one's own limit is T. */
void plant_open(struct plant *p, int n, int limit);

bool plant_has_link(const struct plant *p, int a, int b);

/* Appends the link a-b; does nothing where it is none, is there already or finds no room. */
void plant_link(struct plant *p, int a, int b);

/* Gives v a kind and a limit byte, and by them its own limit. The plant's file is one of version 2 from then on. */
void plant_set_own(struct plant *p, int v, int kind, int limit_byte);

/* The same plant in version 1, which has T for every gateway. */
void plant_forget_own(struct plant *p);

/* n gateways with these m links in that order. */
void plant_fill(struct plant *p, int n, int limit, int m, const int (*ends)[2], const int *order);

/* The length of a file of that version. */
size_t plant_file_size(int version, int n, int m);

/* Writes the plant's file and returns its length. */
size_t plant_write(const struct plant *p, uint8_t *file);

/* Shows a plant that failed a test. */
void plant_print(const struct plant *p);

/* Numbers of two bytes, low byte first. */
void put_number(uint8_t *at, int number);
int get_number(const uint8_t *at);

#endif
