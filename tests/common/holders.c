#include "holders.h"

int holders_count(int n, const int *holder, int u)
{
    int count = 0;
    for (int v = 0; v < n; v++)
        count += holder[v] == u;
    return count;
}

int holders_changed(int n, const int *before, const int *after)
{
    int count = 0;
    for (int v = 0; v < n; v++)
        count += before[v] != after[v];
    return count;
}

bool holders_same_held(int n, const int *a, const int *b)
{
    for (int v = 0; v < n; v++)
        if ((a[v] == NOBODY) != (b[v] == NOBODY))
            return false;
    return true;
}
