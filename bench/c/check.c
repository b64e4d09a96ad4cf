/* Check: how many chains are broken, and by how many bits. */
#include "bits.h"

void c_check(const uint8_t *stripe, size_t m, size_t n, size_t w, size_t counts[2])
{
    struct chain c;
    uint64_t all = 0, broken = 0;
    start(&c, m, n, w, 0);
    for (size_t p = 0;;) {
        uint64_t bits = chain_bits(stripe, &c, m, w);
        all += bits;
        broken += bits > 0;
        if (++p == n) break;
        up(&c, m, n, w);
    }
    counts[0] = broken;
    counts[1] = all;
}
