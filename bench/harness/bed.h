/* A bed: what a call works on, what it is told and what it says. */
#ifndef BED_H
#define BED_H
#include <stddef.h>
#include <stdint.h>

/* Two numbers of an answer. */
enum { DONE = 0, DISAGREE = 9 };

struct bed {
    size_t m, n, w;
    size_t count, a, b;     /* the lost columns; a small write's column and row */
    uint8_t *stripe, *work, *symbol;
    size_t length, room;    /* of the stripe and of the workspace or buffer */
    size_t answer, told[2]; /* the number of the answer, and the two numbers of check and locate */
    size_t off;             /* how far the buffers are from an even address */
};
typedef void call_fn(struct bed *);

struct bed new_bed(size_t m, size_t n, size_t w, size_t off);
void drop(struct bed *b);

/* Every byte becomes another one. */
void spoil(uint8_t *bytes, size_t length);

/* A sound stripe of any bytes, and nothing lost or said. */
void make(struct bed *b);
void copy(struct bed *to, const struct bed *from);
int same(const struct bed *x, const struct bed *y);
#endif
