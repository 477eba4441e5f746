/* What programs in C stand on, on the PDP-11 and on the host: numbers of 16 and 32 bits, which are the same on the PDP-11,
 * where int has 16 bits, and on the host; and a console. Products of 16-bit numbers are cast before they are used, since the
 * host multiplies them in 32 bits. */
#ifndef SMALL_H
#define SMALL_H

#ifdef __pdp11__
typedef int int16;
typedef unsigned int uint16;
typedef long int32;
typedef unsigned long uint32;
#else
typedef short int16;
typedef unsigned short uint16;
typedef int int32;
typedef unsigned int uint32;
#endif
typedef unsigned char byte;

/* Types a character; a new line is a carriage return and a line feed. */
void put(char c);

/* Ends the program. */
void leave(void);

/* Types a text; a number in decimal; the low digits of a number in hexadecimal, so many of them. */
void text(const char *from);
void number(int32 n);
void hexadecimal(uint32 n, int16 digits);

/* Compares, copies and sets bytes. */
int16 same(const void *one, const void *other, uint16 length);
void copy(void *to, const void *from, uint16 length);
void fill(void *to, byte with, uint16 length);

/* A sum of bytes that depends on their order: Fletcher's, in two halves of 16 bits. */
uint32 checksum(const void *from, uint16 length);

/* The next number of a sequence that looks random, 0 to 32767; and where it begins. */
int16 random_number(void);
void random_begin(uint16 seed);

#endif
