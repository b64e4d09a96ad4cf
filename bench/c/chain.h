/* A chain, and the way from one to the next. */
#ifndef CHAIN_H
#define CHAIN_H
#include "v2.h"

enum { MOST_ROWS = 16 };

/* Chain p: where its symbols stand, from the start of column p on. from[under(d)] is the symbol of height d below p,
 * from[over(d)] the one above. The same numbers serve every column but for those that wrap around, and from one column
 * to the next at most one of each side changes. */
struct chain { size_t p; ptrdiff_t from[2 * MOST_ROWS]; };

static inline size_t under(size_t d) { return 2 * (d - 1); }
static inline size_t over(size_t d) { return 2 * (d - 1) + 1; }

static inline size_t below(size_t p, size_t d, size_t n) { return p >= d ? p - d : p + n - d; }
static inline size_t above(size_t p, size_t d, size_t n) { return p + d < n ? p + d : p + d - n; }

static void start(struct chain *c, size_t m, size_t n, size_t w, size_t p)
{
    ptrdiff_t all = (ptrdiff_t)(n * m * w), a = (ptrdiff_t)((m - 1) * w), b = a;
    c->p = p;
    for (size_t d = 1; d < m; d++) {
        a -= (ptrdiff_t)((m + 1) * w);
        b += (ptrdiff_t)((m - 1) * w);
        c->from[under(d)] = d > p ? a + all : a;
        c->from[over(d)] = p + d >= n ? b - all : b;
    }
}

/* From chain p to chain p+1. */
static inline void up(struct chain *c, size_t m, size_t n, size_t w)
{
    size_t p = c->p + 1, all = n * m * w;
    if (p == n) {
        start(c, m, n, w, 0);
        return;
    }
    c->p = p;
    if (p < m) c->from[under(p)] -= (ptrdiff_t)all;
    if (n - p < m) c->from[over(n - p)] -= (ptrdiff_t)all;
}

/* From chain p to chain p-1. */
static inline void down(struct chain *c, size_t m, size_t n, size_t w)
{
    size_t p = c->p, all = n * m * w;
    if (p == 0) {
        start(c, m, n, w, n - 1);
        return;
    }
    c->p = p - 1;
    if (p < m) c->from[under(p)] += (ptrdiff_t)all;
    if (n - p < m) c->from[over(n - p)] += (ptrdiff_t)all;
}

/* The XOR of byte t of the chain's information symbols. */
static inline uint8_t byte_of(const uint8_t *column, const ptrdiff_t *from, const ptrdiff_t *end, size_t t)
{
    uint8_t s = 0;
    for (const ptrdiff_t *o = from; o != end; o++) s ^= column[*o + (ptrdiff_t)t];
    return s;
}
#endif
