/* Every operation of ours and of C compared with the reference: at several columns, on an even address and an odd one. */
#include "harness.h"
#include "operations.h"
#include <stdio.h>
#include <stdlib.h>

static void compare(const struct operation *op, const char *who, const struct bed *got, const struct bed *want)
{
    if (same(got, want)) return;
    fprintf(stderr, "WRONG: %s of %s at (%zu, %zu, %zu), %zu bytes off, column %zu: it says %zu %zu %zu, not %zu %zu %zu\n", op->name, who,
            got->m, got->n, got->w, got->off, got->a, got->answer, got->told[0], got->told[1], want->answer, want->told[0], want->told[1]);
    exit(1);
}

/* What C leaves undone is done for it; the answer is its own. */
static void whole(const struct operation *op, struct bed *b)
{
    op->c(b);
    size_t answer = b->answer;
    if (op->c_rest) op->c_rest(b);
    b->answer = answer;
}

static void test_at(const struct operation *op, size_t c, struct bed *ready, struct bed *want, struct bed *got)
{
    make(ready);
    op->prepare(ready, c);
    copy(want, ready);
    op->plain(want);
    if (op->ours) {
        copy(got, ready);
        op->ours(got);
        compare(op, "ours", got, want);
    }
    copy(got, ready);
    whole(op, got);
    compare(op, "C", got, want);
}

/* Every column of a small stripe; of a large one the ends, the middle, and those near the ends. */
static int tried(const struct bed *b, size_t c)
{
    return b->length <= 8192 || c < 2 || c == b->n / 2 || c + 1 == b->n || c + b->m == b->n;
}

static void test_address(size_t m, size_t n, size_t w, size_t off)
{
    struct bed ready = new_bed(m, n, w, off), want = new_bed(m, n, w, 0), got = new_bed(m, n, w, off);
    for (size_t k = 0; k < operation_count; k++)
        for (size_t c = 0; c < n; c++)
            if (tried(&ready, c)) test_at(&operations[k], c, &ready, &want, &got);
    drop(&ready), drop(&want), drop(&got);
}

void test(size_t m, size_t n, size_t w)
{
    test_address(m, n, w, 0);
    test_address(m, n, w, 1);
}
