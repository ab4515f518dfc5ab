#include "file_rules.h"

#include <string.h>

#include "own_limit.h"
#include "placing.h"

struct header {
    int version, n, limit, m;
};

static void read_header(const uint8_t *file, struct header *h)
{
    h->version = get_number(file + 3);
    h->n = get_number(file + 5);
    h->limit = file[7];
    h->m = get_number(file + 8);
}

static int header_refusal(const uint8_t *file, size_t len, struct header *h)
{
    if (len < HEADER)
        return 9;
    read_header(file, h);
    if (memcmp(file, "PLT", 3) != 0)
        return 7;
    if (h->version != 1 && h->version != 2)
        return 8;
    if (h->n > MAX_GATEWAYS)
        return 1;
    if (h->limit < 2 || h->limit > MAX_LIMIT)
        return 2;
    if (h->m > MAX_LINKS)
        return 12;
    if (len != (size_t)HEADER + 4 * (size_t)h->m + (size_t)(h->version == 1 ? 2 * h->n : 4 * h->n))
        return 9;
    return 0;
}

/* linked is a table of who is linked to whom so far; the file is not searched again for each link. */
static int link_refusal(int n, int a, int b, bool (*linked)[MAX_GATEWAYS])
{
    if (a >= n || b >= n)
        return 3;
    if (a == b)
        return 4;
    if (linked[a][b])
        return 20;
    linked[a][b] = linked[b][a] = true;
    return 0;
}

static int links_refusal(const uint8_t *at, const struct header *h, struct plant *p)
{
    static bool linked[MAX_GATEWAYS][MAX_GATEWAYS];
    for (int v = 0; v < h->n; v++)
        memset(linked[v], 0, (size_t)h->n);
    for (int i = 0; i < h->m; i++, at += 4) {
        p->ends[i][0] = get_number(at);
        p->ends[i][1] = get_number(at + 2);
        int refusal = link_refusal(h->n, p->ends[i][0], p->ends[i][1], linked);
        if (refusal != 0)
            return refusal;
    }
    return 0;
}

static int order_refusal(const uint8_t *at, const struct header *h, struct plant *p)
{
    bool there[MAX_GATEWAYS] = {false};
    for (int i = 0; i < h->n; i++, at += 2) {
        int v = get_number(at);
        if (v >= h->n || there[v])
            return 6;
        there[v] = true;
        p->order[i] = v;
    }
    return 0;
}

/* The kinds and limit bytes of version 2, which stand at the end. Any gateway's may be the one at fault. */
static int limits_refusal(const uint8_t *at, const struct header *h, struct plant *p)
{
    for (int v = 0; v < h->n; v++, at += 2) {
        if (own_limit_refused(at[1]))
            return 33;
        plant_set_own(p, v, at[0], at[1]);
    }
    p->version = 2;
    return 0;
}

int file_own_refusal(const uint8_t *file, size_t len, struct plant *p)
{
    struct header h;
    int refusal = header_refusal(file, len, &h);
    if (refusal != 0)
        return refusal;
    plant_open(p, h.n, h.limit);
    refusal = links_refusal(file + HEADER, &h, p);
    if (refusal != 0)
        return refusal;
    p->m = h.m;
    const uint8_t *order = file + HEADER + 4 * h.m;
    refusal = order_refusal(order, &h, p);
    if (refusal != 0 || h.version == 1)
        return refusal;
    return limits_refusal(order + 2 * h.n, &h, p);
}

int file_refusal_after(const uint8_t *file, size_t len, uint32_t placings, size_t out_len, struct plant *p)
{
    int refusal = file_own_refusal(file, len, p);
    if (refusal != 0)
        return refusal;
    if (placings > (uint32_t)p->n)
        return 24;
    return out_len < 3 * (size_t)p->n + 4 ? 10 : 0;
}

int file_refusal(const uint8_t *file, size_t len, size_t out_len, struct plant *p)
{
    return file_refusal_after(file, len, 0, out_len, p); /* 0 is never above n */
}

/* Whether there is such a gateway and the papers' placing leaves it. */
static bool is_left(const struct plant *p, uint32_t gateway)
{
    int holder[MAX_GATEWAYS];
    placing_first(p, p->n, holder);
    return gateway < (uint32_t)p->n && holder[gateway] == NOBODY;
}

int file_refusal_why(const uint8_t *file, size_t len, uint32_t gateway, size_t out_len, struct plant *p)
{
    int refusal = file_own_refusal(file, len, p);
    if (refusal != 0)
        return refusal;
    if (!is_left(p, gateway))
        return 30;
    return out_len < 4 * (size_t)p->n + 4 ? 10 : 0;
}
