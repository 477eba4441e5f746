/* The functions of numbers, which have 32 bits; a result that doesn't fit is a fault. */
#ifndef NUMBERS_H
#define NUMBERS_H

#include "heap.h"

value do_plus(value given);
value do_minus(value given);
value do_times(value given);
value do_divide(value given);
value do_mod(value given);
value do_same(value given);
value do_less(value given);
value do_greater(value given);
value do_at_most(value given);
value do_at_least(value given);
value do_random(value given);

#endif
