/* The adapter: each of our calls on a bed. */
#include "bangsorut.h"
#include "candidates.h"

void ours_encode(struct bed *b) { b->answer = bangsorut_encode(b->m, b->n, b->w, b->stripe, b->length); }
void ours_check(struct bed *b) { b->answer = bangsorut_check(b->m, b->n, b->w, b->stripe, b->length, b->told); }
void ours_locate(struct bed *b) { b->answer = bangsorut_locate(b->m, b->n, b->w, b->stripe, b->length, b->told); }
void ours_small_write(struct bed *b)
{
    b->answer = bangsorut_small_write(b->m, b->n, b->w, b->stripe, b->length, b->a, b->b, b->symbol, b->w);
}
void ours_rebuild(struct bed *b)
{
    b->answer = bangsorut_rebuild(b->m, b->n, b->w, b->count, b->a, b->b, b->stripe, b->length, b->work, b->room);
}
void ours_fill(struct bed *b)
{
    b->answer = bangsorut_fill(b->m, b->n, b->w, b->stripe, b->length, b->count, b->a, b->b, b->a, b->work, b->room);
}
