#include "orders.h"

static void reverse(int *list, int from, int end)
{
    while (from < --end) {
        int kept = list[from];
        list[from++] = list[end];
        list[end] = kept;
    }
}

bool order_next(int *order, int n)
{
    int i = n - 1, j = n - 1;
    while (i > 0 && order[i - 1] > order[i])
        i--;
    if (i <= 0)
        return false;
    while (order[j] < order[i - 1])
        j--;
    int kept = order[j];
    order[j] = order[i - 1];
    order[i - 1] = kept;
    reverse(order, i, n);
    return true;
}
