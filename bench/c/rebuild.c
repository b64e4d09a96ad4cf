/* Rebuild: recover the lost columns in a workspace, test every chain that was not used for it, then write. */
#include "agree.h"
#include "sum.h"

/* From now on slot k of the chain stands elsewhere; gives where it stood. */
static inline ptrdiff_t move(struct chain *c, size_t k, ptrdiff_t to)
{
    ptrdiff_t stood = c->from[k];
    c->from[k] = to;
    return stood;
}

/* Where the symbol of height d of a column in the workspace stands, as the chain counts. */
static inline ptrdiff_t staged(const uint8_t *stripe, const struct chain *c, const uint8_t *work, size_t m, size_t w, size_t d)
{
    return (ptrdiff_t)((uintptr_t)work - (uintptr_t)stripe + (m - 1 - d) * w - c->p * m * w);
}

static inline void copy(uint8_t *to, const uint8_t *from, size_t length)
{
    size_t t = 0;
#define COPY(i) PUT(to + t, i) = AT(from + t, i);
    for (; length - t >= 8 * VEC; t += 8 * VEC) { R8(COPY) }
    for (; length - t >= VEC; t += VEC) { R1(COPY) }
    for (; t < length; t++) to[t] = from[t];
}

/* The chains f+m to f-m hold nothing lost, f-(m-1) to f are solved, f+1 to f+(m-1) hold one symbol of the workspace. */
int c_rebuild1(uint8_t *stripe, size_t m, size_t n, size_t w, size_t f, uint8_t *work)
{
    struct chain c;
    uint8_t *to = work;
    start(&c, m, n, w, above(f, m, n));
    if (!agree(stripe, &c, m, n, w, n - (2 * m - 1))) return 0;
    for (size_t d = m - 1; d > 0; d--, to += w) {
        solve(to, stripe, &c, m, w, over(d));
        up(&c, m, n, w);
    }
    add_up(to, stripe + f * m * w, c.from, m, w);
    for (size_t d = 1; d < m; d++) {
        up(&c, m, n, w);
        ptrdiff_t lost = move(&c, under(d), staged(stripe, &c, work, m, w, d));
        if (!agrees(stripe, &c, m, w)) return 0;
        c.from[under(d)] = lost;
    }
    copy(stripe + f * m * w, work, m * w);
    return 1;
}

/* Chain f+e, between f and f+s: it holds f's symbol of height e and the other's of height s-e, where there are such. */
static inline int agrees_between(
    const uint8_t *stripe, struct chain *c, size_t m, size_t w, size_t e, size_t s, const uint8_t *work_f, const uint8_t *work_g)
{
    ptrdiff_t f = 0, g = 0;
    if (e < m) f = move(c, under(e), staged(stripe, c, work_f, m, w, e));
    if (s - e < m) g = move(c, over(s - e), staged(stripe, c, work_g, m, w, s - e));
    int agreed = agrees(stripe, c, m, w);
    if (e < m) c->from[under(e)] = f;
    if (s - e < m) c->from[over(s - e)] = g;
    return agreed;
}

/* The symbol of height d of one lost column (0: its parity), where slot o of the chain is the other's of height d+s:
 * that one is staged already, if there is such a height. */
static inline void solve_beside(
    uint8_t *to, const uint8_t *stripe, struct chain *c, size_t m, size_t w, size_t d, size_t k, size_t s, size_t o, const uint8_t *other)
{
    ptrdiff_t stood = 0;
    if (d + s < m) stood = move(c, o, staged(stripe, c, other, m, w, d + s));
    if (d > 0) solve(to, stripe, c, m, w, k);
    else add_up(to, stripe + c->p * m * w, c->from, m, w);
    if (d + s < m) c->from[o] = stood;
}

/* The outer-chain order: f's symbols from the chains f-d and g's from g+d, the greatest height first, parity last; s is the walk.
 * lo goes to chain f, hi to chain g. */
static inline void solve_both(
    const uint8_t *stripe, struct chain *lo, struct chain *hi, size_t m, size_t n, size_t w, size_t s, uint8_t *work_f, uint8_t *work_g)
{
    for (size_t d = m - 1;; d--) {
        size_t at = (m - 1 - d) * w;
        solve_beside(work_f + at, stripe, lo, m, w, d, over(d), s, over(d + s), work_g);
        solve_beside(work_g + at, stripe, hi, m, w, d, under(d), s, under(d + s), work_f);
        if (d == 0) return;
        up(lo, m, n, w);
        down(hi, m, n, w);
    }
}

/* The chains g+m to f-m hold nothing lost, those between f and g only what is staged then. */
int c_rebuild2(uint8_t *stripe, size_t m, size_t n, size_t w, size_t f, size_t g, uint8_t *work)
{
    struct chain lo, hi;
    size_t s = below(g, f, n);
    if (s > n / 2 || (2 * s == n && g < f)) {
        size_t h = f;
        f = g;
        g = h;
        s = n - s;
    }
    uint8_t *work_f = work, *work_g = work + m * w;
    start(&lo, m, n, w, above(g, m, n));
    if (!agree(stripe, &lo, m, n, w, n - s - (2 * m - 1))) return 0;
    start(&hi, m, n, w, above(g, m - 1, n));
    solve_both(stripe, &lo, &hi, m, n, w, s, work_f, work_g);
    for (size_t e = 1; e < s; e++) {
        up(&lo, m, n, w);
        if (!agrees_between(stripe, &lo, m, w, e, s, work_f, work_g)) return 0;
    }
    copy(stripe + f * m * w, work_f, m * w);
    copy(stripe + g * m * w, work_g, m * w);
    return 1;
}

void c_clear(uint8_t *work, size_t length)
{
    size_t t = 0;
#define CLEAR(i) PUT(work + t, i) = (vec){0};
    for (; length - t >= 8 * VEC; t += 8 * VEC) { R8(CLEAR) }
    for (; length - t >= VEC; t += VEC) { R1(CLEAR) }
    for (; t < length; t++) work[t] = 0;
}
