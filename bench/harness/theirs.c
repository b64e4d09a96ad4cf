/* The adapter of the C versions: the same calls on a bed. */
#include "candidates.h"
#include "v2.h"
#include <string.h>

void c_on_encode(struct bed *b) { c_encode(b->stripe, b->m, b->n, b->w), b->answer = DONE; }
void c_on_check(struct bed *b) { c_check(b->stripe, b->m, b->n, b->w, b->told), b->answer = DONE; }
void c_on_locate(struct bed *b) { c_locate(b->stripe, b->m, b->n, b->w, b->told), b->answer = DONE; }
void c_on_small_write(struct bed *b) { c_small_write(b->stripe, b->m, b->n, b->w, b->a, b->b, b->symbol), b->answer = DONE; }
void c_on_rebuild1(struct bed *b) { b->answer = c_rebuild1(b->stripe, b->m, b->n, b->w, b->a, b->work) ? DONE : DISAGREE; }
void c_on_rebuild2(struct bed *b) { b->answer = c_rebuild2(b->stripe, b->m, b->n, b->w, b->a, b->b, b->work) ? DONE : DISAGREE; }
void c_on_fill1(struct bed *b) { c_fill1(b->stripe, b->m, b->n, b->w, b->a, b->work), b->answer = DONE; }
void c_on_clear(struct bed *b) { c_clear(b->work, b->room), b->answer = DONE; }
void c_on_memset(struct bed *b) { memset(b->work, 0, b->room), b->answer = DONE; }
