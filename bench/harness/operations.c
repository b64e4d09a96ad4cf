/* The operations, and how a bed with a sound stripe is made ready for each. */
#include "operations.h"
#include "candidates.h"

static uint8_t *symbol(struct bed *b, size_t c, size_t row) { return b->stripe + (c % b->n * b->m + row) * b->w; }
static void spoil_column(struct bed *b, size_t c) { spoil(symbol(b, c, 0), b->m * b->w); }

static void sound(struct bed *b, size_t c) { (void)b, (void)c; }
static void no_parity(struct bed *b, size_t c)
{
    (void)c;
    for (size_t p = 0; p < b->n; p++) spoil(symbol(b, p, b->m - 1), b->w);
}

static void one_column(struct bed *b, size_t c) { spoil_column(b, c); }
static void two_columns(struct bed *b, size_t c) { spoil_column(b, c), spoil_column(b, c + b->n / 2); }
static void one_byte(struct bed *b, size_t c) { spoil(symbol(b, c, 0) + b->w / 2, 1); }
/* The chains on either side differ by as many bits, but not by the same. */
static void unlike(struct bed *b, size_t c)
{
    symbol(b, c + 1, b->m - 1)[b->w - 1] ^= 1;
    symbol(b, c + b->n - 1, b->m - 1)[b->w - 1] ^= 2;
}

static void write_one(struct bed *b, size_t c)
{
    b->count = 0, b->a = c, b->b = c % (b->m - 1);
    spoil(b->symbol, b->w);
}

static void lose_one(struct bed *b, size_t c)
{
    b->count = 1, b->a = c, b->b = 0;
    spoil_column(b, c);
}
static void lose_one_long(struct bed *b, size_t c) { lose_one(b, c), b->room *= 2; }
static void lose_two(struct bed *b, size_t c, size_t walk)
{
    b->count = 2, b->a = c, b->b = (c + walk) % b->n;
    spoil_column(b, b->a);
    spoil_column(b, b->b);
}
static void walk_1(struct bed *b, size_t c) { lose_two(b, c, 1); }
static void walk_2(struct bed *b, size_t c) { lose_two(b, c, 2); }
static void walk_before_m(struct bed *b, size_t c) { lose_two(b, c, b->m - 1); }
static void walk_m(struct bed *b, size_t c) { lose_two(b, c, b->m); }
static void walk_half(struct bed *b, size_t c) { lose_two(b, c, b->n / 2); }
static void walk_back(struct bed *b, size_t c) { lose_two(b, c, b->n - 1); }

/* A byte of a parity symbol breaks that one chain: beside the lost column or columns, between them, or far from them. */
static void break_chain(struct bed *b, size_t p) { spoil(symbol(b, p, b->m - 1) + b->w / 2, 1); }
static void disagree_beside(struct bed *b, size_t c) { lose_one(b, c), break_chain(b, c + 1); }
static void disagree_far(struct bed *b, size_t c) { lose_one(b, c), break_chain(b, c + b->m); }
static void disagree_between(struct bed *b, size_t c) { walk_m(b, c), break_chain(b, c + 1); }
static void disagree_far_from_two(struct bed *b, size_t c) { walk_1(b, c), break_chain(b, c + 1 + b->m); }

static void clear(struct bed *b, size_t c) { (void)c, spoil(b->work, b->room); }

static size_t of_stripe(const struct bed *b) { return b->length; }
static size_t of_symbol(const struct bed *b) { return b->w; }
static size_t of_lost(const struct bed *b) { return b->count * b->m * b->w; }
static size_t of_work(const struct bed *b) { return b->room; }

#define BOTH(call) .ours = ours_##call, .c = c_on_##call, .plain = plain_##call, .bytes = of_stripe
#define WRITE .ours = ours_small_write, .c = c_on_small_write, .plain = plain_small_write, .bytes = of_symbol
#define REBUILD(k) .ours = ours_rebuild, .c = c_on_rebuild##k, .plain = plain_rebuild, .c_rest = c_on_clear, .bytes = of_lost
#define FILL .ours = ours_fill, .c = c_on_fill1, .plain = plain_fill, .bytes = of_lost
#define CLEAR(by) .c = c_on_##by, .plain = plain_clear, .bytes = of_work
const struct operation operations[] = {
    {"encode", no_parity, BOTH(encode)},
    {"check", sound, BOTH(check)},
    {"check_damaged", two_columns, BOTH(check)},
    {"locate_sound", sound, BOTH(locate)},
    {"locate_one", one_column, BOTH(locate)},
    {"locate_byte", one_byte, BOTH(locate)},
    {"locate_several", two_columns, BOTH(locate)},
    {"locate_unlike", unlike, BOTH(locate)},
    {"small_write", write_one, WRITE},
    {"rebuild_one", lose_one, REBUILD(1)},
    {"rebuild_one_0", lose_one, REBUILD(1), .at_zero = 1},
    {"rebuild_one_long", lose_one_long, REBUILD(1)},
    {"rebuild_two", walk_1, REBUILD(2)},
    {"rebuild_two_2", walk_2, REBUILD(2)},
    {"rebuild_two_m-1", walk_before_m, REBUILD(2)},
    {"rebuild_two_m", walk_m, REBUILD(2)},
    {"rebuild_two_half", walk_half, REBUILD(2)},
    {"rebuild_two_back", walk_back, REBUILD(2)},
    {"disagree_beside", disagree_beside, REBUILD(1)},
    {"disagree_far", disagree_far, REBUILD(1)},
    {"disagree_between", disagree_between, REBUILD(2)},
    {"disagree_far_from_two", disagree_far_from_two, REBUILD(2)},
    {"fill", lose_one, FILL},
    {"fill_0", lose_one, FILL, .at_zero = 1},
    {"clear", clear, CLEAR(clear)},
    {"memset", clear, CLEAR(memset)},
};
const size_t operation_count = sizeof operations / sizeof *operations;
