/* Beds made, copied and compared, with some bytes after each buffer that no call may touch. */
#include "bed.h"
#include "candidates.h"
#include <stdio.h>
#include <stdlib.h>
#include <string.h>

enum { GUARD = 16, UNSAID = 99 };

static size_t work_length(const struct bed *b) { return 4 * b->m * b->w + GUARD; }

static uint8_t *some(size_t length, size_t off)
{
    uint8_t *bytes = aligned_alloc(64, (length + off + GUARD + 63) / 64 * 64);
    if (!bytes) {
        perror("memory");
        exit(1);
    }
    return bytes + off;
}

struct bed new_bed(size_t m, size_t n, size_t w, size_t off)
{
    struct bed b = {.m = m, .n = n, .w = w, .length = m * n * w, .off = off};
    b.stripe = some(b.length, off);
    b.work = some(4 * m * w, off);
    b.symbol = some(w, off);
    return b;
}

void drop(struct bed *b) { free(b->stripe - b->off), free(b->work - b->off), free(b->symbol - b->off); }

static uint8_t any_byte(void)
{
    static uint64_t seed = 0x243f6a8885a308d3u;
    seed ^= seed << 13;
    seed ^= seed >> 7;
    seed ^= seed << 17;
    return (uint8_t)(seed >> 32);
}

void spoil(uint8_t *bytes, size_t length)
{
    for (size_t i = 0; i < length; i++) bytes[i] ^= 1 + any_byte() % 255;
}

static void fresh(uint8_t *bytes, size_t length)
{
    for (size_t i = 0; i < length; i++) bytes[i] = any_byte();
}

void make(struct bed *b)
{
    fresh(b->stripe, b->length + GUARD);
    fresh(b->work, work_length(b));
    fresh(b->symbol, b->w);
    b->room = 2 * b->m * b->w;
    b->count = b->a = b->b = b->told[0] = b->told[1] = 0;
    plain_encode(b);
    b->answer = UNSAID;
}

void copy(struct bed *to, const struct bed *from)
{
    struct bed own = *to;
    *to = *from;
    to->off = own.off;
    to->stripe = memcpy(own.stripe, from->stripe, from->length + GUARD);
    to->work = memcpy(own.work, from->work, work_length(from));
    to->symbol = memcpy(own.symbol, from->symbol, from->w);
}

int same(const struct bed *x, const struct bed *y)
{
    return x->answer == y->answer && !memcmp(x->told, y->told, sizeof x->told)
        && !memcmp(x->stripe, y->stripe, x->length + GUARD) && !memcmp(x->work, y->work, work_length(x)) && !memcmp(x->symbol, y->symbol, x->w);
}
