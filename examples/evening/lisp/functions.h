/* The functions that are built in. */
#ifndef FUNCTIONS_H
#define FUNCTIONS_H

#include "heap.h"

/* The numbers of the two functions whose value the evaluator goes on with: it evaluates it, or calls what the list says. */
#define EVAL_FUNCTION 0
#define APPLY_FUNCTION 1
extern const int16 function_count;

const char *function_name(int16 number);

/* The value of a function for a list of arguments, of which there are so many. */
value function_call(int16 number, int16 count, value arguments);

/* A list backwards, in its own cells. */
value reversed(value list);

/* t or nil. */
value truth(int16 is_true);

#endif
