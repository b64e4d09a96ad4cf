/* Blocks of up to 8 vectors, each vector of the result a local of its own, so that it stays in a register. */
#ifndef BLOCKS_H
#define BLOCKS_H
#include <stddef.h>
#include <stdint.h>
#include <string.h>

#define VEC 16
typedef uint8_t vec __attribute__((vector_size(VEC), aligned(1), may_alias));
#define AT(p, i) (*(const vec *)((p) + (i) * VEC))
#define PUT(p, i) (*(vec *)((p) + (i) * VEC))

/* F for each vector of a block. */
#define R1(F) F(0)
#define R2(F) R1(F) F(1)
#define R4(F) R2(F) F(2) F(3)
#define R8(F) R4(F) F(4) F(5) F(6) F(7)

#define START_A(i) vec s##i = AT(a, i);
#define ADD_A(i) s##i ^= AT(a, i);
#define ADD_B(i) s##i ^= AT(b, i);
#define GATHER(i) any |= s##i;

/* Adds the symbols of a chain from this place of its list on, two a turn. */
#define ADD_FROM(EACH, first, end)                          \
    for (const ptrdiff_t *o = (first); o != (end); o += 2) { \
        a = at + o[0];                                      \
        EACH(ADD_A)                                         \
        b = at + o[1];                                      \
        EACH(ADD_B)                                         \
    }

/* A function of each number of vectors. */
#define FOUR_SIZES(MAKE) MAKE(8, R8) MAKE(4, R4) MAKE(2, R2) MAKE(1, R1)

/* Those functions one after the other, from t on; each gives how far it came, and less than a vector is left. */
#define BY_BLOCKS(t, w, name, ...)              \
    t = name##8(__VA_ARGS__, t, w);             \
    if (t != w) {                               \
        t = name##4(__VA_ARGS__, t, w);         \
        if (t != w) {                           \
            t = name##2(__VA_ARGS__, t, w);     \
            t = name##1(__VA_ARGS__, t, w);     \
        }                                       \
    }

#define ALWAYS static inline __attribute__((always_inline))

ALWAYS int zero(vec x)
{
    uint64_t half[2];
    memcpy(half, &x, sizeof half);
    return !(half[0] | half[1]);
}
#endif
