/* What is compared and counted. */
#ifndef OPERATIONS_H
#define OPERATIONS_H
#include "bed.h"

struct operation {
    const char *name;
    void (*prepare)(struct bed *, size_t c); /* on a sound stripe, at column c */
    call_fn *ours, *c, *plain;               /* clearing alone has none of ours */
    call_fn *c_rest;                         /* what C leaves undone that ours does: only for the comparison */
    size_t (*bytes)(const struct bed *);     /* what a call is charged with */
    int at_zero;                             /* counted at column 0, not at n/2 */
};
extern const struct operation operations[];
extern const size_t operation_count;

#endif
