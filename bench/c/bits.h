/* How many bits a chain differs by from its parity; they are counted only where a block is not zero. */
#ifndef BITS_H
#define BITS_H
#include "blocks.h"
#include "chain.h"

typedef uint64_t halves __attribute__((vector_size(VEC)));

/* The ones of each byte. */
ALWAYS halves ones_by_byte(vec s)
{
    halves x = (halves)s;
    x -= x >> 1 & 0x5555555555555555;
    x = (x & 0x3333333333333333) + (x >> 2 & 0x3333333333333333);
    return (x + (x >> 4)) & 0x0f0f0f0f0f0f0f0f;
}

/* The sum of all bytes. */
ALWAYS uint64_t total(halves x)
{
    x = (x & 0x00ff00ff00ff00ff) + (x >> 8 & 0x00ff00ff00ff00ff);
    return (x[0] + x[1]) * 0x0001000100010001 >> 48;
}

#define COUNT(i) by_byte += ones_by_byte(s##i);
#define BITS(K, EACH)                                                                                     \
    ALWAYS size_t bits##K(uint64_t *bits, const uint8_t *column, const uint8_t *parity, const ptrdiff_t *from, const ptrdiff_t *end, size_t t, size_t w) \
    {                                                                                                     \
        for (; w - t >= K * VEC; t += K * VEC) {                                                          \
            const uint8_t *at = column + t, *a = parity + t, *b;                                          \
            EACH(START_A)                                                                                 \
            ADD_FROM(EACH, from, end)                                                                     \
            vec any = s0;                                                                                 \
            EACH(GATHER)                                                                                  \
            if (zero(any)) continue;                                                                      \
            halves by_byte = {0};                                                                         \
            EACH(COUNT)                                                                                   \
            *bits += total(by_byte);                                                                      \
        }                                                                                                 \
        return t;                                                                                         \
    }
FOUR_SIZES(BITS)

ALWAYS uint64_t chain_bits(const uint8_t *stripe, const struct chain *c, size_t m, size_t w)
{
    const uint8_t *column = stripe + c->p * m * w, *parity = column + (m - 1) * w;
    const ptrdiff_t *from = c->from, *end = from + 2 * (m - 1);
    uint64_t bits = 0;
    size_t t = 0;
    BY_BLOCKS(t, w, bits, &bits, column, parity, from, end)
    if (t == w) return bits;
    uint8_t rest[VEC] = {0};
    for (uint8_t *at = rest; t < w; t++) *at++ = parity[t] ^ byte_of(column, from, end, t);
    return bits + total(ones_by_byte(AT(rest, 0)));
}
#endif
