/* Small write: the symbol and its two parity symbols in one pass, by the XOR of old and new. */
#include "blocks.h"
#include "chain.h"

void c_small_write(uint8_t *stripe, size_t m, size_t n, size_t w, size_t column, size_t row, const uint8_t *symbol)
{
    size_t d = m - 1 - row, t = 0;
    uint8_t *old = stripe + (column * m + row) * w;
    uint8_t *left = stripe + (below(column, d, n) * m + m - 1) * w;
    uint8_t *right = stripe + (above(column, d, n) * m + m - 1) * w;
#define WRITE(i)                                               \
    {                                                          \
        vec s = AT(symbol + t, i), change = s ^ AT(old + t, i); \
        PUT(left + t, i) ^= change;                            \
        PUT(right + t, i) ^= change;                           \
        PUT(old + t, i) = s;                                   \
    }
    for (; w - t >= 8 * VEC; t += 8 * VEC) { R8(WRITE) }
    for (; w - t >= VEC; t += VEC) { R1(WRITE) }
    for (; t < w; t++) {
        uint8_t s = symbol[t], change = s ^ old[t];
        left[t] ^= change;
        right[t] ^= change;
        old[t] = s;
    }
}
