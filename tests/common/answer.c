#include "answer.h"

#include <string.h>

size_t answer_size(int n)
{
    return 3 * (size_t)n + 4;
}

void answer_read(struct answer *a, int n, const uint8_t *out)
{
    const uint8_t *moved = out + 3 * n;
    for (int v = 0; v < n; v++) {
        a->leader[v] = get_number(out + 2 * v);
        a->choke[v] = out[2 * n + v];
    }
    a->moved = get_number(moved) + 65536L * get_number(moved + 2);
}

void answer_write(int n, const int *leader, const int *choke, uint8_t *out)
{
    for (int v = 0; v < n; v++) {
        put_number(out + 2 * v, leader[v]);
        out[2 * n + v] = (uint8_t)choke[v];
    }
}

int answer_covered(const struct plant *p, const int *leader, int k)
{
    int covered = 0;
    for (int i = 0; i < k; i++)
        covered += leader[p->order[i]] != ALONE;
    return covered;
}

const char *answer_differs(const struct answer *a, const struct answer *b, int n)
{
    size_t size = (size_t)n * sizeof a->leader[0];
    if (memcmp(a->leader, b->leader, size) != 0)
        return "the leader list is another than by the rules";
    if (memcmp(a->choke, b->choke, size) != 0)
        return "the choke set is another than by the walk";
    if (a->moved != b->moved)
        return "the number moved is another than by the placings";
    return NULL;
}
