/* The reference: the rules byte by byte, in no hurry. */
#include "candidates.h"
#include <stdlib.h>
#include <string.h>

static uint8_t *byte(const struct bed *b, size_t column, size_t height, size_t t)
{
    return &b->stripe[column % b->n * b->m * b->w + (b->m - 1 - height) * b->w + t];
}

/* The XOR of byte t of the information symbols of chain p. */
static uint8_t parity(const struct bed *b, size_t p, size_t t)
{
    uint8_t x = 0;
    for (size_t d = 1; d < b->m; d++) x ^= *byte(b, p + b->n - d, d, t) ^ *byte(b, p + d, d, t);
    return x;
}

static uint8_t differs(const struct bed *b, size_t p, size_t t) { return parity(b, p, t) ^ *byte(b, p, 0, t); }

void plain_encode(struct bed *b)
{
    for (size_t p = 0; p < b->n; p++)
        for (size_t t = 0; t < b->w; t++) *byte(b, p, 0, t) = parity(b, p, t);
    b->answer = DONE;
}

void plain_check(struct bed *b)
{
    b->told[0] = b->told[1] = 0;
    for (size_t p = 0; p < b->n; p++) {
        size_t bits = 0;
        for (size_t t = 0; t < b->w; t++) bits += (size_t)__builtin_popcount(differs(b, p, t));
        b->told[0] += bits > 0;
        b->told[1] += bits;
    }
    b->answer = DONE;
}

/* Whether column c explains byte t: the chains on either side alike, and all further ones unbroken. */
static int explained(const struct bed *b, size_t c, size_t t)
{
    for (size_t d = 1; d < b->m; d++)
        if (differs(b, c + b->n - d, t) != differs(b, c + d, t)) return 0;
    for (size_t steps = b->m; steps <= b->n - b->m; steps++)
        if (differs(b, c + steps, t)) return 0;
    return 1;
}

void plain_locate(struct bed *b)
{
    plain_check(b);
    if (!b->told[0]) return;
    b->told[0] = 2, b->told[1] = 0;
    for (size_t c = 0; c < b->n; c++) {
        size_t t = 0;
        while (t < b->w && explained(b, c, t)) t++;
        if (t < b->w) continue;
        b->told[0] = 1, b->told[1] = c;
        return;
    }
}

void plain_small_write(struct bed *b)
{
    size_t d = b->m - 1 - b->b;
    for (size_t t = 0; t < b->w; t++) {
        uint8_t *old = byte(b, b->a, d, t), change = *old ^ b->symbol[t];
        *byte(b, b->a + b->n - d, 0, t) ^= change;
        *byte(b, b->a + d, 0, t) ^= change;
        *old ^= change;
    }
    b->answer = DONE;
}

/* lost[column][height]. */
typedef char lost_symbols[64][16];

/* How many symbols of chain p are lost; the last of them in *column and *height. */
static size_t lacks(const struct bed *b, lost_symbols lost, size_t p, size_t *column, size_t *height)
{
    size_t lacking = 0;
    for (size_t d = 0; d < b->m; d++)
        for (size_t side = 0; side < (d ? 2 : 1); side++) {
            size_t c = (side ? p + d : p + b->n - d) % b->n;
            if (!lost[c][d]) continue;
            lacking++, *column = c, *height = d;
        }
    return lacking;
}

/* Every chain that lacks one symbol gives it, until no symbol is lost. */
static void recover(struct bed *b)
{
    lost_symbols lost = {{0}};
    for (size_t d = 0; d < b->m; d++) lost[b->a][d] = 1;
    for (size_t d = 0; d < b->m && b->count > 1; d++) lost[b->b][d] = 1;
    for (size_t left = b->count * b->m; left > 0;)
        for (size_t p = 0; p < b->n; p++) {
            size_t c, d;
            if (lacks(b, lost, p, &c, &d) != 1) continue;
            for (size_t t = 0; t < b->w; t++) *byte(b, c, d, t) ^= differs(b, p, t);
            lost[c][d] = 0, left--;
        }
}

void plain_clear(struct bed *b) { memset(b->work, 0, b->room), b->answer = DONE; }

/* Where a chain is broken even then, the survivors disagree, and the stripe is as it was. */
void plain_rebuild(struct bed *b)
{
    uint8_t *before = malloc(b->length);
    size_t told[2] = {b->told[0], b->told[1]};
    memcpy(before, b->stripe, b->length);
    recover(b);
    plain_check(b);
    size_t broken = b->told[0];
    if (broken) memcpy(b->stripe, before, b->length);
    free(before);
    plain_clear(b);
    memcpy(b->told, told, sizeof told);
    b->answer = broken ? DISAGREE : DONE;
}

void plain_fill(struct bed *b)
{
    size_t column = b->m * b->w;
    uint8_t *before = malloc(b->length);
    memcpy(before, b->stripe, b->length);
    recover(b);
    memcpy(b->work, b->stripe + b->a * column, column);
    memcpy(b->stripe, before, b->length);
    free(before);
    b->answer = DONE;
}
