/* The Lisp on the pack: an image of all that is defined, and files of text with definitions. */
#ifndef PACK_H
#define PACK_H

#include "heap.h"

/* (save "NAME") writes an image; (load "NAME") opens one, or a text, for the prompt to take in; (files) lists the files,
 * (type "NAME") types a text. */
value do_save(value given);
value do_load(value given);
value do_files(value given);
value do_type(value given);
value do_bye(value given);

/* Whether an image is open; takes it in, in place of all that is defined, between two evaluations. If the disk fails on
 * the way, that is a fault, and the Lisp begins anew. */
int16 image_is_open(void);
void image_take(void);

/* The text that is open: whether there is one, its next character (-1 at its end), and its close. */
int16 text_is_open(void);
int16 text_character(void);
void text_end(void);

#endif
