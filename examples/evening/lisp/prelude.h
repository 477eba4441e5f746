/* What is defined in Lisp itself. */
#ifndef PRELUDE_H
#define PRELUDE_H

/* Defines it. */
void prelude(void);

#endif
