/* A talk with who sits at the terminal: keys, lines and numbers. What a key does is seen only by these calls: a program
 * that uses them doesn't call has_key() and key() of machine.h, and leaves vector 60 alone. While a program waits for a key
 * the processor waits too, so the emulator rests. */
#ifndef TALK_H
#define TALK_H

#include "small.h"

#define CONTROL_C 3

/* The next key, for which it waits; and the next key, or 0 if none waits. Ctrl-C is CONTROL_C. */
int16 next_key(void);
int16 any_key(void);

/* Whether Ctrl-C was pressed. Keys before it stay for the calls above, up to 255 of them; one more is dropped with a bell.
 * By Ctrl-C all keys before it are dropped. Call it in each turn of a loop that may be long. */
int16 interrupted(void);

/* Reads a line with an echo: DEL and backspace rub a character out, Ctrl-U all of them. It holds at most ROOM - 1
 * characters and a 0 behind them; a key for which there is no room rings the bell. The answer is its length, or -1 after
 * Ctrl-C. */
int16 read_line(char *to, int16 room);

/* Reads a number of 16 bits with a sign, behind blanks; 1 and AT behind it, or 0 if there is none. */
int16 read_number(const char **at, int16 *n);

/* A number for random_begin(): it depends on all keys up to now, and on how often it was looked for one that wasn't there.
 * The same keys to the same program give the same number. */
uint16 keys_mixed(void);

/* A letter as a capital. */
char capital(char c);

#endif
