/* Who does the work on a bed: ours, the C versions, and the reference that both are compared with. */
#ifndef CANDIDATES_H
#define CANDIDATES_H
#include "bed.h"

call_fn ours_encode, ours_check, ours_locate, ours_small_write, ours_rebuild, ours_fill;
call_fn c_on_encode, c_on_check, c_on_locate, c_on_small_write, c_on_rebuild1, c_on_rebuild2, c_on_fill1, c_on_clear, c_on_memset;
call_fn plain_encode, plain_check, plain_locate, plain_small_write, plain_rebuild, plain_fill, plain_clear;
#endif
