/* What the Lisp types and reads at the terminal. */
#ifndef CONVERSATION_H
#define CONVERSATION_H

#include "heap.h"

/* Reads expressions, evaluates them, types their values, up to (bye). */
void converse(void);

/* The functions that type and read. */
value do_display(value given);
value do_print(value given);
value do_newline(value given);
value do_read(value given);
value do_key(value given);
value do_emit(value given);
value do_words(value given);

#endif
