#include "neighbours.h"

void neighbours_gather(const struct plant *p, struct neighbours *near)
{
    int count = 0;
    for (int x = 0; x < p->n; x++) {
        near->start[x] = count;
        for (int i = 0; i < p->m; i++) {
            if (p->ends[i][0] == x)
                near->list[count++] = p->ends[i][1];
            if (p->ends[i][1] == x)
                near->list[count++] = p->ends[i][0];
        }
    }
    near->start[p->n] = count;
}
