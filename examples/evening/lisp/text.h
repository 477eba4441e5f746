/* Numbers, strings and symbols as values. */
#ifndef TEXT_H
#define TEXT_H

#include "heap.h"

/* Whether it is a number, which it is; a number's value. */
int16 is_number(value v);
int32 number_in(value v);
value number_of(int32 n);

/* The symbol with a name of so many characters, the same one each time. */
value symbol(const char *name, int16 length);
value symbol_named(const char *name);

/* A string is made from characters one by one; END gives it. One at a time is made. */
void string_begin(void);
void string_add(int16 c);
value string_end(void);

/* The characters of a string's or a symbol's name, one by one: C is behind the last one 0. */
struct characters {
    value at;
    int16 is_second;
};
struct characters characters_of(value v);
int16 next_character(struct characters *of);
int16 length_of(value v);

/* Puts at most ROOM - 1 characters of a string into a C string. */
void copy_string(value v, char *to, int16 room);

#endif
