/* What p11 and p11-terminal want of the system: the one header whose functions know it. Names of files are texts that end with a 0;
 * a fault is one of P11_FILE_WRITTEN (none) to P11_FILE_FAULT. */
#ifndef SYSTEM_H
#define SYSTEM_H

#include <stddef.h>
#include <stdint.h>

/* Whether a word of the command line is UTF-8. */
int is_text(const char *word);

/* Runs a script that lies beside the program on the program and its words; returns where that can't be done. */
void run_beside(const char *script, int count, char **words);

/* From then on names are those of files below this folder, and no others may be had. 0: it isn't there. */
int confine(const char *folder);

/* The bytes of a file, in memory that the caller frees; where it waits also those of a pipe, or outside of the folder of `confine`. */
uint32_t read_file(const char *name, int waits, uint8_t **bytes, size_t *size);

/* Leaves these bytes in a file: a new one is written beside it, and takes its name once the disk has it. So what was there stays
 * whole where that can't be done. */
uint32_t replace_file(const char *name, const uint8_t *bytes, size_t size);

/* Whether a file of this name is there. */
int is_file(const char *name);

/* Opens a script, `-` for standard input: a number for `read_some`, or -1. */
int open_script(const char *name);

/* Reads once: how many bytes came; 0 at the end; -1 if that can't be done. */
long read_some(int from, uint8_t *bytes, size_t room);

/* Writes all of these bytes to standard output: whether that was done. */
int write_all(const uint8_t *bytes, size_t size);

/* Makes a new file, where nothing may be yet: a number for `append`, or -1; and one that takes further bytes, made if it isn't there. */
int make_file(const char *name);
int open_to_append(const char *name);
int append(int file, const uint8_t *bytes, size_t size);

/* Gives names to a function: of the files that begin so, those of folders with a slash behind them. */
void names_of(const char *front, void (*take)(const char *name));

/* Whether standard input is a terminal; sets it so that each key is read as it is pressed, and back. */
int is_terminal(void);
void set_terminal(void);
void put_terminal_back(void);

/* How many columns it has, 0 if that isn't known; how often it was another program's; the signal that ended the dialogue, or 0. */
size_t columns(void);
unsigned returns(void);
int ending_signal(void);

/* Whether keys come within so many milliseconds; and the system's clock in those. */
int waits_for_keys(int milliseconds);
uint64_t now(void);

/* A limit on the size of files, or a reader that is gone, is a fault of a write, and ends no program. */
void ignore_limits(void);

#endif
