/* The functions of strings and symbols. */
#ifndef STRINGS_H
#define STRINGS_H

#include "heap.h"

int16 is_same_text(value one, value other);
value do_string_append(value given);
value do_substring(value given);
value do_number_to_string(value given);
value do_string_to_number(value given);
value do_symbol_to_string(value given);
value do_string_to_symbol(value given);

#endif
