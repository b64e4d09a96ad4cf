/* Bangsorut, a verified coder for RAID-6 disk sets under V2-Code: its calls for C99 and C++, on x86-64 Linux.
 * Link libbangsorut.a, which bin/build-library makes. Each call is the proved one, on one stripe in memory.
 *
 * STRIPE AND SHAPE
 * A stripe has m rows and n columns of symbols of w bytes. Column j is the bytes from j*m*w up to (j+1)*m*w; row i of it
 * starts i*w bytes in. Rows 0 to m-2 hold information, row m-1 holds parity.
 * m is 2 to 16, n is 4m-3 to 64, w is 1 to 4,096, and m*n*w is at most 65,536. Each call checks the shape that it is given.
 *
 * THE PARITY RULE
 * Call m-1-i the height of row i. Chain p is the parity symbol of column p and, for every height d from 1 to m-1, the
 * symbols of height d in columns p-d and p+d, counted modulo n. The parity symbol is the XOR of the 2m-2 others, byte by
 * byte. A chain is broken where this does not hold; a stripe is sound where no chain is broken.
 *
 * ANSWERS
 * A call takes any numbers and any lengths: what it cannot do it refuses. It returns the number of its answer, one of
 * enum bangsorut_answer. Where several apply the lowest is given; 0 means done. The comment of each call names those that
 * it can give. A refused call changes no stripe and no answer buffer, and its other result numbers are 0.
 * bangsorut_choose and bangsorut_column return no number: refused, they give a part of length 0.
 *
 * WHO OWNS WHAT
 * Every buffer is the caller's, before, during and after the call. The library allocates and frees nothing, and keeps no
 * pointer. A pointer must point at as many bytes as the length after it says, and must not be null, even if the length is
 * 0. Arrays of result numbers have the length that the prototype shows; what they held before does not matter.
 * Buffers and arrays lent to one call must not overlap. A call writes nothing but what its comment says.
 *
 * THREADS
 * Nothing is kept between calls: the library has no state. Calls may run in several threads at once on different buffers;
 * a buffer that is lent as const may be lent to several at once. While a call has a buffer nobody else may write it, nor
 * read it unless it is const. */
#ifndef BANGSORUT_H
#define BANGSORUT_H

#include <stddef.h>
#include <stdint.h>

#ifdef __cplusplus
extern "C" {
#endif

/* The answers, by the numbers that the calls return. */
enum bangsorut_answer {
    BANGSORUT_DONE = 0,            /* the call was done */
    BANGSORUT_BAD_ROWS = 1,        /* m is outside its range */
    BANGSORUT_BAD_COLUMNS = 2,     /* n is outside its range */
    BANGSORUT_BAD_SYMBOL = 3,      /* w is outside its range, or m*n*w is over 65,536 */
    BANGSORUT_BAD_STRIPE = 4,      /* the length of the stripe is not m*n*w */
    BANGSORUT_SMALL_WORKSPACE = 5, /* rebuild's workspace is under 2*m*w bytes */
    BANGSORUT_NO_SUCH_PLACE = 6,   /* a column is n or more, or the row is none that the call may write */
    BANGSORUT_SAME_COLUMN = 7,     /* both lost columns are the same */
    BANGSORUT_BAD_BUFFER = 8,      /* the length of the symbol is not w, or the answer buffer is under m*w bytes */
    BANGSORUT_DISAGREE = 9,        /* the survivors disagree */
    BANGSORUT_NO_SUCH_STOCK = 10   /* the stock number is over 9 */
};

/* What bangsorut_locate finds. */
enum bangsorut_damage {
    BANGSORUT_SOUND = 0,      /* no chain is broken */
    BANGSORUT_ONE_COLUMN = 1, /* the stripe is not sound, and a change within one column alone makes it sound */
    BANGSORUT_SEVERAL = 2     /* neither of these: more than one column */
};

/* Which of the two buffers lent to bangsorut_choose the part lies in. */
enum bangsorut_place { BANGSORUT_IN_STRIPE = 0, BANGSORUT_IN_BUFFER = 1 };

/* The lengths in bytes that go with a good shape: of a stripe, of a column or the least answer buffer, of the least
 * workspace. They test nothing: of other numbers the products may wrap. */
static inline size_t bangsorut_stripe_length(size_t m, size_t n, size_t w) { return m * n * w; }
static inline size_t bangsorut_column_length(size_t m, size_t w) { return m * w; }
static inline size_t bangsorut_workspace_length(size_t m, size_t w) { return 2 * m * w; }

/* Encode: sets every parity symbol of the stripe by the rule; information is untouched.
 * Answers: 0, 1 to 4. */
size_t bangsorut_encode(size_t m, size_t n, size_t w, uint8_t *stripe, size_t length);

/* Check: counts[0] is how many chains are broken, counts[1] how many bits differ between stored and computed parity,
 * summed over all chains. Refused: both 0.
 * Answers: 0, 1 to 4. */
size_t bangsorut_check(size_t m, size_t n, size_t w, const uint8_t *stripe, size_t length, size_t counts[2]);

/* Locate: found[0] is a number of enum bangsorut_damage. found[1] is the column under BANGSORUT_ONE_COLUMN, the only one
 * in which a change alone makes the stripe sound; else it is 0. Refused: both 0, so test the answer before found[0].
 * Answers: 0, 1 to 4. */
size_t bangsorut_locate(size_t m, size_t n, size_t w, const uint8_t *stripe, size_t length, size_t found[2]);

/* Small write: replaces one information symbol, rows 0 to m-2, and XORs the change into its two parity symbols. Each
 * chain that was broken stays broken by the same bytes.
 * Answers: 0, 1 to 4, 6 (column n or more, or row m-1 or more), 8 (symbol_length is not w). */
size_t bangsorut_small_write(
    size_t m, size_t n, size_t w, uint8_t *stripe, size_t length, size_t column, size_t row, const uint8_t *symbol,
    size_t symbol_length);

/* Raw store: replaces one symbol of any row and touches nothing else; it keeps no parity right.
 * Answers: 0, 1 to 4, 6 (column n or more, or row m or more), 8 (symbol_length is not w). */
size_t bangsorut_raw_store(
    size_t m, size_t n, size_t w, uint8_t *stripe, size_t length, size_t column, size_t row, const uint8_t *symbol,
    size_t symbol_length);

/* HOW REBUILD, FILL AND CHOOSE ARE TOLD THE LOSSES: count, a and b
 * count 0: none is lost, and a and b are not looked at. count 1: column a is lost, and b is not looked at. count 2: a and b
 * are lost; the order in which they are named makes no difference. A count over 2 is not refused: it means the same as 2, so
 * whoever reads a count from elsewhere refuses it before the call. The columns that are not lost are the survivors. What a
 * lost column holds makes no difference. */

/* Rebuild: writes the lost columns as the survivors determine them, and nothing else of the stripe, if the survivors
 * agree: if there is a stripe that obeys the rule and has their bytes. If there is none the answer is 9 and the stripe
 * stays as it is; with none lost that is so exactly when a chain is broken.
 * The workspace holds at least 2*m*w bytes; what it held before makes no difference. It is zero to its end after the
 * call, under every answer, 5 and the other refusals included: no byte of one client stays in it for the next.
 * Answers: 0, 1 to 4, 5, 6 (a lost column is n or more), 7, 9. */
size_t bangsorut_rebuild(
    size_t m, size_t n, size_t w, size_t count, size_t a, size_t b, uint8_t *stripe, size_t length, uint8_t *workspace,
    size_t workspace_length);

/* Column read, first call. Fill: puts column `wanted`, if it is lost, into the first m*w bytes of the answer buffer. The
 * rest of that buffer, and all of it if the column survives, is untouched.
 * Fill does not test whether the survivors agree. What it puts there is given by the outer-chain order, and is what rebuild
 * would write whenever rebuild accepts. That order: with two lost columns, first is the one from which the other is reached
 * by the shorter walk upward, modulo n, or the smaller number if both walks are n/2. The first's symbol of height d is
 * solved from chain first-d, the second's from chain second+d, greater heights before lesser; parity symbols come last, from
 * chain p itself. With one lost column c, chain c-d is used.
 * Answers: 0, 1 to 4, 6 (a lost column or `wanted` is n or more), 7, 8 (buffer_length under m*w, also if the column
 * survives). */
size_t bangsorut_fill(
    size_t m, size_t n, size_t w, const uint8_t *stripe, size_t length, size_t count, size_t a, size_t b, size_t wanted,
    uint8_t *buffer, size_t buffer_length);

/* Column read, second call. Choose: tells where column `wanted` lies, in the caller's own bytes: in the stripe if it
 * survives, or else in the first m*w bytes of the answer buffer, with no promise that fill was called. Nothing is copied.
 * part[0] is BANGSORUT_IN_STRIPE or BANGSORUT_IN_BUFFER, part[1] where the part starts in it, part[2] its length. The
 * length is m*w, or 0, and then all three are 0, exactly when fill with the same arguments would be refused. */
void bangsorut_choose(
    size_t m, size_t n, size_t w, const uint8_t *stripe, size_t length, size_t count, size_t a, size_t b, size_t wanted,
    const uint8_t *buffer, size_t buffer_length, size_t part[3]);

/* The bytes that bangsorut_choose told of; they are the caller's, and part[2] says how many they are. */
static inline const uint8_t *bangsorut_chosen(const uint8_t *stripe, const uint8_t *buffer, const size_t part[3])
{
    return (part[0] == BANGSORUT_IN_STRIPE ? stripe : buffer) + part[1];
}

/* Column: tells where a column lies in the stripe. part[0] is where it starts, part[1] its length: m*w, or 0, and then both
 * are 0, where 1 to 4 apply or the column is n or more. */
void bangsorut_column(size_t m, size_t n, size_t w, const uint8_t *stripe, size_t length, size_t column, size_t part[2]);

/* Price list of a shape, in symbol XORs: prices[0] for encode, n(2m-3); prices[1] for one column, m(2m-3); prices[2] for two
 * columns, 2m(2m-3). prices[3] is how many symbols are read for one column, 2m(m-1)-1. Refused: all 0.
 * Answers: 0, 1 to 3. */
size_t bangsorut_prices(size_t m, size_t n, size_t w, size_t prices[4]);

/* Stock shapes: shape[0] is m, shape[1] n, shape[2] w. Refused: all 0. Numbers 0 to 9 are, in order, (2,5,512) (2,12,512)
 * (3,9,512) (3,16,1024) (4,13,512) (4,16,1024) (6,21,256) (8,29,256) (12,45,64) (16,61,64).
 * Answers: 0, 10. */
size_t bangsorut_stock(size_t number, size_t shape[3]);

#ifdef __cplusplus
}
#endif
#endif
