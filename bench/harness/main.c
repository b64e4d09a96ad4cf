/* measure test m,n,w ..                 compares every operation with the reference
 * measure count NAME,NAME.. m,n,w ..    runs these operations between the marks
 * measure prices m,n,w ..               says the price list, as our call gives it */
#include "harness.h"
#include <stdio.h>
#include <string.h>

static int refused(const char *why)
{
    fprintf(stderr, "measure: %s\n", why);
    return 2;
}

static int is_shape(const char *word, size_t *m, size_t *n, size_t *w)
{
    return sscanf(word, "%zu,%zu,%zu", m, n, w) == 3 && *m >= 2 && *m <= 16 && *n >= 4 * *m - 3 && *n <= 64 && *w > 0 && *m * *n * *w <= 65536;
}

int main(int argc, char **argv)
{
    const char *what = argc > 2 ? argv[1] : "";
    int counting = !strcmp(what, "count"), testing = !strcmp(what, "test");
    if (!counting && !testing && strcmp(what, "prices")) return refused("test m,n,w .., count NAME,NAME.. m,n,w .., or prices m,n,w ..");
    setvbuf(stdout, 0, _IOLBF, 0);
    if (counting) count_nothing();
    for (int i = 2 + counting; i < argc; i++) {
        size_t m, n, w;
        if (!is_shape(argv[i], &m, &n, &w)) return refused("a shape is m,n,w within its limits");
        if (counting) count(argv[2], m, n, w);
        else if (testing) test(m, n, w);
        else say_prices(m, n, w);
    }
    return 0;
}
