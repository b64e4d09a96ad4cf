/* The sum of a chain: the XOR of the symbols that its list names, block by block. */
#ifndef SUM_H
#define SUM_H
#include "blocks.h"
#include "chain.h"

#define STORE(i) PUT(to + t, i) = s##i;
#define SUM(K, EACH)                                                                                      \
    ALWAYS size_t sum##K(uint8_t *to, const uint8_t *column, const ptrdiff_t *from, const ptrdiff_t *end, size_t t, size_t w) \
    {                                                                                                     \
        for (; w - t >= K * VEC; t += K * VEC) {                                                          \
            const uint8_t *at = column + t, *a = at + from[0], *b = at + from[1];                         \
            EACH(START_A)                                                                                 \
            EACH(ADD_B)                                                                                   \
            ADD_FROM(EACH, from + 2, end)                                                                 \
            EACH(STORE)                                                                                   \
        }                                                                                                 \
        return t;                                                                                         \
    }
FOUR_SIZES(SUM)

static void add_up(uint8_t *to, const uint8_t *column, const ptrdiff_t *from, size_t m, size_t w)
{
    const ptrdiff_t *end = from + 2 * (m - 1);
    size_t t = 0;
    BY_BLOCKS(t, w, sum, to, column, from, end)
    for (; t < w; t++) to[t] = byte_of(column, from, end, t);
}

/* The symbol that the chain lacks in slot k of its list: its parity takes that place for the while. */
static inline void solve(uint8_t *to, const uint8_t *stripe, struct chain *c, size_t m, size_t w, size_t k)
{
    ptrdiff_t lost = c->from[k];
    c->from[k] = (ptrdiff_t)((m - 1) * w);
    add_up(to, stripe + c->p * m * w, c->from, m, w);
    c->from[k] = lost;
}
#endif
