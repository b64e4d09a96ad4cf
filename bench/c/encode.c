/* Encode: every parity symbol by its chain. */
#include "sum.h"

static inline void put_parity(uint8_t *stripe, const struct chain *c, size_t m, size_t w)
{
    uint8_t *column = stripe + c->p * m * w;
    add_up(column + (m - 1) * w, column, c->from, m, w);
}

void c_encode(uint8_t *stripe, size_t m, size_t n, size_t w)
{
    struct chain c;
    start(&c, m, n, w, 0);
    put_parity(stripe, &c, m, w);
    for (size_t p = 1; p < n; p++) {
        up(&c, m, n, w);
        put_parity(stripe, &c, m, w);
    }
}
