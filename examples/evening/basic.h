/* The parts of the BASIC, which BASIC.md describes: its memory and the lines of the program (basic_memory.c, basic_lines.c),
 * values (basic_values.c), statements (basic_run.c), and the prompt (basic.c). */
#ifndef BASIC_H
#define BASIC_H

#include "small.h"

#define LINE 128
#define LONGEST_STRING 255

/* Memory: the numbers, then the places of strings, of 286 names each; the program from PROGRAM on, the arrays, what is free,
 * and the strings, down from SIZE. Addresses are places in it. */
#define SIZE 20000
#define NAMES 286
#define STRINGS (2 * NAMES)
#define PROGRAM (4 * NAMES)
extern byte memory[SIZE];
uint16 word_at(uint16 address);
void set_word(uint16 address, uint16 value);

/* Where the interpreter reads; the line in which that is, or 0; whether a fault was told. */
extern const char *at;
extern uint16 line;
extern int16 failed;

/* Tells a fault, with the line, and what to write instead. */
void fail(const char *what, const char *instead);

/* Typing, which knows the column. */
extern int16 column;
void type(char c);
void type_text(const char *from);
void type_number(int16 n);

/* Reading: blanks; a sign; a word; whether a number begins here, and the number. */
void blanks(void);
int16 sign(char c);
int16 word(const char *wanted);
int16 digit_ahead(void);
int16 digits(void);

/* The lines: a line has its number in a word, a byte that says how long its text is with the 0 at its end, and the text. */
extern uint16 program_end;
const char *line_text(uint16 at_line);
uint16 line_behind(uint16 at_line);
uint16 line_number(uint16 at_line);
/* The first line from a number on, or program_end. */
uint16 line_from(uint16 wanted);
/* Puts a line in, in place of the one of that number; one without a text is taken out. Variables are cleared. */
void put_line(uint16 number_of_it, const char *text_of_it);
void new_program(void);
/* Letters outside of strings and remarks become capitals. */
void capitals(char *text_of_it);
void list(uint16 first, uint16 last);
void save(const char *name);
void load(const char *name);

/* Variables. */
void clear_variables(void);
void dimension(int16 name, int16 is_string, int16 first, int16 second);
/* Where an array's element is, or 0 after a fault; SECOND is -1 if there is one index. */
uint16 element(int16 name, int16 is_string, int16 first, int16 second);
uint16 free_bytes(void);

/* Values: a number; a text, which is put on the pool of texts behind what it holds, and the place where it begins there; and
 * what a variable is. A text is taken from the pool by setting pool_end. */
#define POOL 1024
extern char pool[POOL];
extern uint16 pool_end;
int16 value(void);
uint16 string(void);
int16 string_ahead(void);
/* A value of either kind: 1 if it's a string, which is on the pool alone, or 0 and the number. */
int16 value_or_string(int16 *n);
int16 name(void);
/* The place of a variable or an element, and whether it is that of a string. */
uint16 variable(int16 *is_string);
void store_string(uint16 place, uint16 start);
/* The text on the pool from START on, with a 0 at its end. */
const char *pool_text(uint16 start);
/* Whether Ctrl-C came to INKEY$ or to a list. */
extern int16 stop_wanted;

/* Forgets what a run leaves: variables, loops, subroutines and the place in DATA. */
void forget(void);
/* Runs the statements from AT on, and what they lead to. */
void run(void);
/* Whether a line is a statement of the prompt that leaves BASIC. */
extern int16 is_over;

#endif
