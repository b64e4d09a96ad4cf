/* The price list of a shape, as our call gives it: encode, one column, two columns, symbols read. */
#include "bangsorut.h"
#include "harness.h"
#include <stdio.h>

void say_prices(size_t m, size_t n, size_t w)
{
    size_t prices[4] = {0};
    bangsorut_prices(m, n, w, prices);
    printf("%zu %zu %zu %zu\n", prices[0], prices[1], prices[2], prices[3]);
}
