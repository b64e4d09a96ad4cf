/* Calls between the two marks, and a line for each: m n w operation who bytes.
 * The first region is of a call that does nothing: what it counts is the harness's own. */
#include "harness.h"
#include "marks.h"
#include "operations.h"
#include <stdio.h>
#include <stdlib.h>
#include <string.h>

static __attribute__((noinline)) void region(call_fn *call, struct bed *b)
{
    v2_mark_begin();
    call(b);
    v2_mark_end();
}

static void nothing(struct bed *b) { (void)b; }

void count_nothing(void)
{
    region(nothing, 0);
    puts("0 0 0 nothing - 0");
}

static void count_call(const struct bed *sound, struct bed *b, const struct operation *op, const char *who, call_fn *call)
{
    if (!call) return;
    copy(b, sound);
    op->prepare(b, op->at_zero ? 0 : b->n / 2);
    region(call, b);
    if (b->answer != DONE) {
        fprintf(stderr, "measure: %s of %s was refused\n", op->name, who);
        exit(1);
    }
    printf("%zu %zu %zu %s %s %zu\n", b->m, b->n, b->w, op->name, who, op->bytes(b));
}

static int named(const char *name, const char *list)
{
    size_t length = strlen(name);
    for (const char *at = list; (at = strstr(at, name)); at += length)
        if ((at == list || at[-1] == ',') && (at[length] == ',' || !at[length])) return 1;
    return 0;
}

void count(const char *names, size_t m, size_t n, size_t w)
{
    struct bed sound = new_bed(m, n, w, 0), b = new_bed(m, n, w, 0);
    make(&sound);
    for (size_t k = 0; k < operation_count; k++) {
        if (!named(operations[k].name, names)) continue;
        count_call(&sound, &b, &operations[k], "ours", operations[k].ours);
        count_call(&sound, &b, &operations[k], "c", operations[k].c);
    }
    drop(&sound), drop(&b);
}
