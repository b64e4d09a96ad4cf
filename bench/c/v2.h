/* V2-Code in plain C: what our calls are measured against. A stripe has n columns with m symbols of w bytes each.
 * Byte t of row i of column j stands at j*m*w + i*w + t. Rows 0 to m-2 hold information, row m-1 parity.
 * The height of row i is m-1-i. The parity symbol of column p is the XOR, over the heights d = 1 to m-1, of the
 * symbols of height d in the columns p-d and p+d (mod n). No argument is tested. */
#ifndef V2_H
#define V2_H
#include <stddef.h>
#include <stdint.h>

void c_encode(uint8_t *stripe, size_t m, size_t n, size_t w);

/* counts: broken chains, differing bits. */
void c_check(const uint8_t *stripe, size_t m, size_t n, size_t w, size_t counts[2]);

/* found: 0 sound, 1 one column, 2 more; then the column, or 0. */
void c_locate(const uint8_t *stripe, size_t m, size_t n, size_t w, size_t found[2]);

void c_small_write(uint8_t *stripe, size_t m, size_t n, size_t w, size_t column, size_t row, const uint8_t *symbol);

/* 1 when the lost columns are written, 0 when the survivors disagree and the stripe is as it was.
 * The workspace has at least 2*m*w bytes and is not cleared: c_clear does that alone. */
int c_rebuild1(uint8_t *stripe, size_t m, size_t n, size_t w, size_t f, uint8_t *work);
int c_rebuild2(uint8_t *stripe, size_t m, size_t n, size_t w, size_t f, size_t g, uint8_t *work);
void c_clear(uint8_t *work, size_t length);

/* The lost column f into the buffer. */
void c_fill1(const uint8_t *stripe, size_t m, size_t n, size_t w, size_t f, uint8_t *buffer);
#endif
