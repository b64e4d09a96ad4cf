/* How a storage daemon calls the library. A stripe is encoded, two of its columns are lost, one of them is read while it is
 * lost, and both are rebuilt. Then a byte goes wrong unnoticed: a rebuild from it is refused, the damage is located, and
 * its column is rebuilt. Every answer is tested; rebuild.out has the lines that this prints. */
#include "bangsorut.h"
#include <stdio.h>
#include <stdlib.h>
#include <string.h>

/* A stripe with its shape, the bytes that it should have, and the workspace that its rebuilds are lent. */
struct stripe {
    size_t m, n, w, length, workspace_length;
    uint8_t *bytes, *expected, *workspace;
};

/* The answers in words, for a log. */
static const char *words(size_t answer)
{
    switch (answer) {
    case BANGSORUT_DONE: return "done";
    case BANGSORUT_BAD_ROWS: return "too few or too many rows";
    case BANGSORUT_BAD_COLUMNS: return "too few or too many columns";
    case BANGSORUT_BAD_SYMBOL: return "symbols of no bytes or too large";
    case BANGSORUT_BAD_STRIPE: return "the stripe does not fit the shape";
    case BANGSORUT_SMALL_WORKSPACE: return "the workspace is too small";
    case BANGSORUT_NO_SUCH_PLACE: return "no such column or row";
    case BANGSORUT_SAME_COLUMN: return "the same column twice";
    case BANGSORUT_BAD_BUFFER: return "a buffer of the wrong length";
    case BANGSORUT_DISAGREE: return "the survivors disagree";
    case BANGSORUT_NO_SUCH_STOCK: return "no such stock shape";
    default: return "an answer that the header does not have";
    }
}

static void stop(const char *why)
{
    fprintf(stderr, "%s\n", why);
    exit(1);
}

/* Ends the program if a call was refused that should not have been. */
static void must(const char *call, size_t answer)
{
    if (answer == BANGSORUT_DONE) return;
    fprintf(stderr, "%s answers %zu: ", call, answer);
    stop(words(answer));
}

static uint8_t *room(size_t length)
{
    uint8_t *bytes = malloc(length);
    if (!bytes) stop("out of memory");
    return bytes;
}

static size_t wrong_bytes(const struct stripe *s)
{
    size_t wrong = 0;
    for (size_t i = 0; i < s->length; i++) wrong += s->bytes[i] != s->expected[i];
    return wrong;
}

static const char *zero_or_not(const struct stripe *s)
{
    for (size_t i = 0; i < s->workspace_length; i++)
        if (s->workspace[i] != 0) return "not zero";
    return "all zero";
}

/* What a rebuild left behind it. */
static void report(const struct stripe *s, const char *what)
{
    printf("%s; bytes wrong: %zu; workspace: %s\n", what, wrong_bytes(s), zero_or_not(s));
}

static struct stripe from_stock(size_t number)
{
    size_t shape[3];
    must("stock", bangsorut_stock(number, shape));
    struct stripe s = {.m = shape[0], .n = shape[1], .w = shape[2]};
    s.length = bangsorut_stripe_length(s.m, s.n, s.w);
    s.workspace_length = bangsorut_workspace_length(s.m, s.w);
    s.bytes = room(s.length);
    s.expected = room(s.length);
    s.workspace = room(s.workspace_length);
    memset(s.workspace, 0xAA, s.workspace_length);
    printf("stock shape %zu: %zu rows, %zu columns, symbols of %zu bytes\n", number, s.m, s.n, s.w);
    return s;
}

/* Puts data into the whole stripe; encode then replaces what stands in the parity rows. */
static void encode(struct stripe *s)
{
    for (size_t i = 0; i < s->length; i++) s->bytes[i] = (uint8_t)(7 * i + i / 256);
    must("encode", bangsorut_encode(s->m, s->n, s->w, s->bytes, s->length));
    memcpy(s->expected, s->bytes, s->length);
}

static void report_check(const struct stripe *s, const char *when)
{
    size_t counts[2];
    must("check", bangsorut_check(s->m, s->n, s->w, s->bytes, s->length, counts));
    printf("%s: %zu broken chains, %zu differing bits\n", when, counts[0], counts[1]);
}

/* What a failed disk leaves: bytes that mean nothing. */
static void lose(struct stripe *s, size_t column)
{
    size_t part[2];
    bangsorut_column(s->m, s->n, s->w, s->bytes, s->length, column, part);
    if (part[1] == 0) stop("no such column");
    memset(s->bytes + part[0], 0xEE, part[1]);
}

/* Reads a column of a stripe that has lost columns a and b, without writing the stripe. */
static void read_column(const struct stripe *s, size_t a, size_t b, size_t wanted)
{
    size_t part[3], length = bangsorut_column_length(s->m, s->w);
    uint8_t *buffer = room(length);
    must("fill", bangsorut_fill(s->m, s->n, s->w, s->bytes, s->length, 2, a, b, wanted, buffer, length));
    bangsorut_choose(s->m, s->n, s->w, s->bytes, s->length, 2, a, b, wanted, buffer, length, part);
    const uint8_t *column = bangsorut_chosen(s->bytes, buffer, part);
    const char *from = part[0] == BANGSORUT_IN_STRIPE ? "stripe" : "answer buffer";
    int right = part[2] == length && memcmp(column, s->expected + wanted * length, length) == 0;
    printf("column %zu, read from the %s: %s\n", wanted, from, right ? "right" : "wrong");
    free(buffer);
}

/* Rebuilds `count` of a and b, and gives the answer. */
static size_t rebuild(struct stripe *s, size_t count, size_t a, size_t b)
{
    return bangsorut_rebuild(s->m, s->n, s->w, count, a, b, s->bytes, s->length, s->workspace, s->workspace_length);
}

static void lose_and_rebuild(struct stripe *s, size_t a, size_t b)
{
    lose(s, a);
    lose(s, b);
    printf("columns %zu and %zu are lost\n", a, b);
    read_column(s, a, b, b);
    read_column(s, a, b, a / 2);
    must("rebuild", rebuild(s, 2, a, b));
    report(s, "both are rebuilt");
}

/* One byte of column `wrong` changes, and column `lost` is to be rebuilt from it and the other survivors. */
static void rebuild_from_wrong_bytes(struct stripe *s, size_t wrong, size_t lost)
{
    s->bytes[wrong * bangsorut_column_length(s->m, s->w)] ^= 0x11;
    report_check(s, "a byte goes wrong");
    size_t answer = rebuild(s, 1, lost, 0);
    printf("rebuild of column %zu answers %zu: %s\n", lost, answer, words(answer));
    report(s, "nothing is written");
}

/* Finds the column that is wrong, and rebuilds it from the others. */
static void scrub(struct stripe *s)
{
    size_t found[2];
    must("locate", bangsorut_locate(s->m, s->n, s->w, s->bytes, s->length, found));
    if (found[0] != BANGSORUT_ONE_COLUMN) stop("more than one column is wrong, or none");
    printf("locate names column %zu\n", found[1]);
    must("rebuild", rebuild(s, 1, found[1], 0));
    report(s, "it is rebuilt");
}

int main(void)
{
    struct stripe s = from_stock(2);
    encode(&s);
    report_check(&s, "encoded");
    lose_and_rebuild(&s, 8, 1);
    rebuild_from_wrong_bytes(&s, 5, 3);
    scrub(&s);
    free(s.bytes);
    free(s.expected);
    free(s.workspace);
    return 0;
}
