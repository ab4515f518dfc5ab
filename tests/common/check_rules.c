#include "check_rules.h"

#include "file_rules.h"
#include "packing.h"

struct handed handed_of(const uint8_t *file, size_t len, int n, const uint8_t *out)
{
    return (struct handed){file, len, out, 2 * (size_t)n, out + 2 * n, (size_t)n};
}

static bool is_set(const struct plant *p, const int *choke)
{
    for (int v = 0; v < p->n; v++)
        if (choke[v] > 1)
            return false;
    return true;
}

/* False where there are fewer than n entries. */
static bool read_leaders(const struct handed *h, int n, int *leader)
{
    if (h->leaders_len / 2 < (size_t)n)
        return false;
    for (int v = 0; v < n; v++)
        leader[v] = get_number(h->leaders + 2 * v);
    return true;
}

/* False where there are fewer than n bytes. */
static bool read_choke(const struct handed *h, int n, int *choke)
{
    if (h->choke_len < (size_t)n)
        return false;
    for (int v = 0; v < n; v++)
        choke[v] = h->choke[v];
    return true;
}

int check_refusal(const struct handed *h)
{
    static struct plant p;
    int leader[MAX_GATEWAYS], choke[MAX_GATEWAYS];
    int refusal = file_own_refusal(h->file, h->len, &p);
    if (refusal != 0)
        return refusal;
    if (!read_leaders(h, p.n, leader) || !packing_is(&p, leader))
        return 31;
    if (!read_choke(h, p.n, choke) || !is_set(&p, choke))
        return 32;
    return packing_difference(&p, choke) == packing_alone(&p, leader) ? 0 : 32;
}
