/* Text as values. */
#ifndef READER_H
#define READER_H

#include "heap.h"

/* Reads the next expression of a source, which gives a character at each call, and -1 at its end. A fault: the text is wrong, or it
 * ends within the expression. Whether there was one. */
int16 read_from(int16 (*source)(void), value *v);

/* Forgets a character that was read behind an expression: the source is another one, or begins anew. */
void reader_begin(void);

/* How many open parentheses wait for theirs while a line is being read; 1 within a string. */
extern int16 reader_open;

#endif
