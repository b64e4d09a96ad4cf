/* What the program does with a shape. */
#ifndef HARNESS_H
#define HARNESS_H
#include <stddef.h>

void test(size_t m, size_t n, size_t w);
void count_nothing(void);
void count(const char *names, size_t m, size_t n, size_t w);
void say_prices(size_t m, size_t n, size_t w);
#endif
