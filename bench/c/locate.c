/* Locate: the first column that explains every broken chain. As ours does it, each chain is counted once, and bytes are
 * compared only of two chains that differ by as many bits, and by some. */
#include "bits.h"

enum { MOST_COLUMNS = 64 };

/* Blocks of two chains: they are alike as long as the sum of both is zero; t stops at the first block that is not. */
#define ALIKE(K, EACH)                                                                                    \
    ALWAYS size_t alike##K(int *same, const uint8_t *p, const struct chain *c, const uint8_t *q, const struct chain *e, size_t m, size_t t, size_t w) \
    {                                                                                                     \
        for (; w - t >= K * VEC; t += K * VEC) {                                                          \
            const uint8_t *at = p + t, *a = at + (m - 1) * w, *b = q + t + (m - 1) * w;                   \
            EACH(START_A)                                                                                 \
            EACH(ADD_B)                                                                                   \
            ADD_FROM(EACH, c->from, c->from + 2 * (m - 1))                                                \
            at = q + t;                                                                                   \
            ADD_FROM(EACH, e->from, e->from + 2 * (m - 1))                                                \
            vec any = s0;                                                                                 \
            EACH(GATHER)                                                                                  \
            if (zero(any)) continue;                                                                      \
            *same = 0;                                                                                    \
            return w;                                                                                     \
        }                                                                                                 \
        return t;                                                                                         \
    }
FOUR_SIZES(ALIKE)

static inline uint8_t differs(const uint8_t *column, const struct chain *c, size_t m, size_t w, size_t t)
{
    return column[(m - 1) * w + t] ^ byte_of(column, c->from, c->from + 2 * (m - 1), t);
}

/* Whether chains p and q differ by the same bytes. */
static int alike(const uint8_t *stripe, size_t m, size_t n, size_t w, size_t p, size_t q)
{
    struct chain c, e;
    const uint8_t *one = stripe + p * m * w, *other = stripe + q * m * w;
    int same = 1;
    size_t t = 0;
    start(&c, m, n, w, p);
    start(&e, m, n, w, q);
    BY_BLOCKS(t, w, alike, &same, one, &c, other, &e, m)
    for (; t < w; t++)
        if (differs(one, &c, m, w, t) != differs(other, &e, m, w, t)) return 0;
    return same;
}

/* Whether every broken chain is within m-1 columns of column c. */
static int within(const uint16_t *bits, size_t m, size_t n, size_t c)
{
    for (size_t p = 0; p < n; p++) {
        if (!bits[p]) continue;
        size_t steps = below(p, c, n);
        if (steps >= m && n - steps >= m) return 0;
    }
    return 1;
}

/* Whether the chains on either side of column c differ by the same bytes at every height. */
static int explains(const uint8_t *stripe, const uint16_t *bits, size_t m, size_t n, size_t w, size_t c)
{
    for (size_t d = 1; d < m; d++) {
        size_t p = below(c, d, n), q = above(c, d, n);
        if (bits[p] != bits[q]) return 0;
        if (bits[p] && !alike(stripe, m, n, w, p, q)) return 0;
    }
    return 1;
}

static size_t search(const uint8_t *stripe, const uint16_t *bits, size_t m, size_t n, size_t w)
{
    for (size_t c = 0; c < n; c++)
        if (within(bits, m, n, c) && explains(stripe, bits, m, n, w, c)) return c;
    return n;
}

void c_locate(const uint8_t *stripe, size_t m, size_t n, size_t w, size_t found[2])
{
    struct chain c;
    uint16_t bits[MOST_COLUMNS];
    uint64_t any = 0;
    start(&c, m, n, w, 0);
    for (size_t p = 0;;) {
        uint64_t of_chain = chain_bits(stripe, &c, m, w);
        bits[p] = (uint16_t)of_chain;
        any |= of_chain;
        if (++p == n) break;
        up(&c, m, n, w);
    }
    size_t column = any ? search(stripe, bits, m, n, w) : 0;
    found[0] = !any ? 0 : column < n ? 1 : 2;
    found[1] = column < n ? column : 0;
}
