#include "plant.h"

#include <stdio.h>
#include <string.h>

#include "own_limit.h"

void put_number(uint8_t *at, int number)
{
    at[0] = (uint8_t)(number % 256);
    at[1] = (uint8_t)(number / 256 % 256);
}

int get_number(const uint8_t *at)
{
    return at[0] + 256 * at[1];
}

void plant_open(struct plant *p, int n, int limit)
{
    p->n = n;
    p->limit = limit;
    p->m = 0;
    for (int v = 0; v < n; v++)
        p->order[v] = v;
    plant_forget_own(p);
}

void plant_forget_own(struct plant *p)
{
    p->version = 1;
    for (int v = 0; v < MAX_GATEWAYS; v++) { /* past n too, where shapes look that have too few gateways */
        p->limits[v] = p->limit;
        p->kinds[v] = p->limit_bytes[v] = 0;
    }
}

void plant_set_own(struct plant *p, int v, int kind, int limit_byte)
{
    p->version = 2;
    p->kinds[v] = (uint8_t)kind;
    p->limit_bytes[v] = (uint8_t)limit_byte;
    p->limits[v] = own_limit(p->limit, kind, limit_byte);
}

bool plant_has_link(const struct plant *p, int a, int b)
{
    for (int i = 0; i < p->m; i++) {
        const int *e = p->ends[i];
        if ((e[0] == a && e[1] == b) || (e[0] == b && e[1] == a))
            return true;
    }
    return false;
}

void plant_link(struct plant *p, int a, int b)
{
    if (a == b || a >= p->n || b >= p->n || p->m == MAX_LINKS || plant_has_link(p, a, b))
        return;
    p->ends[p->m][0] = a;
    p->ends[p->m][1] = b;
    p->m++;
}

void plant_fill(struct plant *p, int n, int limit, int m, const int (*ends)[2], const int *order)
{
    plant_open(p, n, limit);
    for (int i = 0; i < m; i++)
        plant_link(p, ends[i][0], ends[i][1]);
    for (int i = 0; i < n; i++)
        p->order[i] = order[i];
}

size_t plant_file_size(int version, int n, int m)
{
    return (size_t)HEADER + 4 * (size_t)m + (version == 2 ? 4 : 2) * (size_t)n;
}

size_t plant_write(const struct plant *p, uint8_t *file)
{
    uint8_t *at = file;
    memcpy(at, "PLT", 3);
    put_number(at + 3, p->version);
    put_number(at + 5, p->n);
    at[7] = (uint8_t)p->limit;
    put_number(at + 8, p->m);
    at += HEADER;
    for (int i = 0; i < p->m; i++, at += 4) {
        put_number(at, p->ends[i][0]);
        put_number(at + 2, p->ends[i][1]);
    }
    for (int i = 0; i < p->n; i++, at += 2)
        put_number(at, p->order[i]);
    for (int v = 0; v < p->n && p->version == 2; v++) {
        *at++ = p->kinds[v];
        *at++ = p->limit_bytes[v];
    }
    return (size_t)(at - file);
}

void plant_print(const struct plant *p)
{
    printf("  n %d, T %d, m %d", p->n, p->limit, p->m);
    if (p->n <= 24 && p->m <= 48) {
        printf(", links");
        for (int i = 0; i < p->m; i++)
            printf(" %d-%d", p->ends[i][0], p->ends[i][1]);
        printf(", order");
        for (int i = 0; i < p->n; i++)
            printf(" %d", p->order[i]);
        if (p->version == 2)
            printf(", limits");
        for (int v = 0; v < p->n && p->version == 2; v++)
            printf(" %d", p->limits[v]);
    }
    printf("\n");
}
