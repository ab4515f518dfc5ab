#include "own_limit.h"

/* The limits that go by kind, from each kind's first number on, the highest first. Kind 0 takes T. */
static const struct {
    int from, limit;
} by_kind[] = {{192, 16}, {128, 8}, {32, 4}, {1, 2}};

bool own_limit_refused(int limit_byte)
{
    return limit_byte == 1 || limit_byte > 16;
}

int own_limit(int t, int kind, int limit_byte)
{
    if (limit_byte != 0)
        return limit_byte;
    for (int i = 0; i < 4; i++)
        if (kind >= by_kind[i].from)
            return by_kind[i].limit;
    return t;
}
