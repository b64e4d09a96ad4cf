/* Fill of a single lost column: its symbol of height d from the chain f-d, the parity symbol from chain f. */
#include "sum.h"

void c_fill1(const uint8_t *stripe, size_t m, size_t n, size_t w, size_t f, uint8_t *buffer)
{
    struct chain c;
    start(&c, m, n, w, below(f, m - 1, n));
    for (size_t d = m - 1; d > 0; d--, buffer += w) {
        solve(buffer, stripe, &c, m, w, over(d));
        up(&c, m, n, w);
    }
    add_up(buffer, stripe + f * m * w, c.from, m, w);
}
