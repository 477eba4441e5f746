/* The evaluator: what an expression is worth. */
#ifndef EVALUATOR_H
#define EVALUATOR_H

#include "heap.h"

/* Enters the functions and the special forms as the values of their names. */
void evaluator_begin(void);

/* Finds the symbols that it knows by name, after an image has been taken in. */
void evaluator_symbols(void);

/* The value of an expression. What goes wrong is told, with the calls in which it did, and the value is nil. */
value evaluate(value what);

/* Tells what went wrong, if something did, and forgets it and all that was being evaluated: whether it did. */
int16 tell_fault(void);

/* Whether Ctrl-C has been typed, which is a fault then. */
int16 is_stopped(void);

/* The name of a function or a special form. */
const char *name_of(value v);

#endif
