/* Whether a chain agrees with its parity, block by block: the sums of all blocks are gathered, and tested once. */
#ifndef AGREE_H
#define AGREE_H
#include "blocks.h"
#include "chain.h"

#define ADD_PARITY(i) s##i ^= AT(parity + t, i);
#define TEST(K, EACH)                                                                                     \
    ALWAYS size_t test##K(vec *differs, const uint8_t *column, const uint8_t *parity, const ptrdiff_t *from, const ptrdiff_t *end, size_t t, size_t w) \
    {                                                                                                     \
        vec any = *differs;                                                                               \
        for (; w - t >= K * VEC; t += K * VEC) {                                                          \
            const uint8_t *at = column + t, *a = at + from[0], *b = at + from[1];                         \
            EACH(START_A)                                                                                 \
            EACH(ADD_B)                                                                                   \
            EACH(ADD_PARITY)                                                                              \
            ADD_FROM(EACH, from + 2, end)                                                                 \
            EACH(GATHER)                                                                                  \
        }                                                                                                 \
        *differs = any;                                                                                   \
        return t;                                                                                         \
    }
FOUR_SIZES(TEST)

static int agrees(const uint8_t *stripe, const struct chain *c, size_t m, size_t w)
{
    const uint8_t *column = stripe + c->p * m * w, *parity = column + (m - 1) * w;
    const ptrdiff_t *from = c->from, *end = from + 2 * (m - 1);
    vec differs = {0};
    size_t t = 0;
    BY_BLOCKS(t, w, test, &differs, column, parity, from, end)
    for (; t < w; t++) differs[0] |= parity[t] ^ byte_of(column, from, end, t);
    return zero(differs);
}

/* So many chains from c on; c goes to the one after them. */
static int agree(const uint8_t *stripe, struct chain *c, size_t m, size_t n, size_t w, size_t chains)
{
    for (; chains > 0; chains--) {
        if (!agrees(stripe, c, m, w)) return 0;
        up(c, m, n, w);
    }
    return 1;
}
#endif
