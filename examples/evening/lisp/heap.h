/* The Lisp's memory: cells that have a kind, a head and a tail; a stack of values; what went wrong. */
#ifndef HEAP_H
#define HEAP_H

#include "small.h"

/* A value is odd for a number of 15 bits (twice the number and 1), and else twice the number of a cell. */
typedef int16 value;

enum kind {
    FREE,
    EMPTY,     /* nil, and the mark of a symbol without a value */
    PAIR,
    LONG,      /* a number of 32 bits: its high and its low word */
    SYMBOL,    /* the BYTES of its name, and its global value */
    STRING,    /* its BYTES */
    BYTES,     /* two characters, and more BYTES or nil; a 0 fills the last ones */
    PROCEDURE, /* a scope; parameters and body */
    BUILT_IN,  /* a place in the table of functions */
    SPECIAL    /* a place in the table of special forms */
};

#define CELLS 4470
#define DEEPEST 2000
#define SPARE 100
#define NIL 0
#define UNBOUND 2

extern value heads[CELLS], tails[CELLS];
extern byte kinds[CELLS];

/* Empties the memory, but for nil. */
void heap_begin(void);

/* A new cell; the head and the tail outlive a collection. When memory is full that is a fault, and the cell is of a reserve. */
value cell(enum kind kind, value head, value tail);
value cons(value head, value tail);

/* Frees the cells that nothing leads to: how many are free. */
int16 collect(void);

/* One more than the number of the last cell in use; and after the arrays up to there were read anew, frees all others. */
int16 cells_used(void);
void cells_set(int16 count);

/* Whether it is a cell of a kind; its head and tail, which are nil for a number. */
int16 is_a(enum kind kind, value v);
value head(value v);
value tail(value v);
void set_head(value v, value to);
void set_tail(value v, value to);

/* A value that is pushed isn't freed up to its pop. A stack that is full is a fault; what stops then has some places to spare. */
void push(value v);
value pop(void);
extern value stack[DEEPEST + SPARE];
extern int16 depth;

/* The evaluator's registers, and the lists of symbols, which a collection leaves as they are. */
#define SYMBOL_LISTS 16
extern value symbols[SYMBOL_LISTS];
extern value expression, scope, result, call;

/* The first thing that went wrong, or no text; and the value that it is about, if it is about one. */
extern const char *wrong;
extern value wrong_value;
extern int16 wrong_has_value;
void fault(const char *what);
void fault_about(value v, const char *what);

#endif
