/* Values as text. */
#ifndef PRINTER_H
#define PRINTER_H

#include "heap.h"

/* Types a value as it would be read again, strings in quotes; or as it is meant for people, without them. */
void print(value v);
void display(value v);

/* Types a value as print() does, but of a long one only the beginning. */
void print_short(value v);

/* Whether display() has begun a line that a new line hasn't ended. */
extern int16 line_is_begun;

#endif
