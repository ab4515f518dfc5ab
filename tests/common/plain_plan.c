#include "plain_plan.h"

#include "plain_work.h"

/* restrict, since out is no part of w: else w->n is read again after each byte. */
void plain_write(const struct work *w, uint8_t *restrict out)
{
    for (int v = 0; v < w->n; v++, out += 2) {
        out[0] = (uint8_t)w->leader[v];
        out[1] = (uint8_t)(w->leader[v] >> 8);
    }
    for (int v = 0; v < w->n; v++)
        *out++ = w->from[v] != NONE;
    for (int i = 0; i < 4; i++)
        out[i] = (uint8_t)(w->moved >> 8 * i);
}

uint32_t plain_plan(const uint8_t *file, size_t len, uint8_t *out, size_t out_len)
{
    struct work w;
    uint32_t refusal = plain_take(&w, file, len);
    if (refusal != 0)
        return refusal;
    if (out_len < 3 * (size_t)w.n + 4)
        return 10;
    plain_place(&w);
    plain_read(&w);
    plain_write(&w, out);
    return 0;
}
