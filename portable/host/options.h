/* Command lines of p11 and p11-terminal: options of the form --NAME or --NAME VALUE, and one script. */
#ifndef OPTIONS_H
#define OPTIONS_H

#include <stdint.h>

enum { MOST_OPTIONS = 12 };

struct option {
    const char *name;  /* without -- */
    const char *value; /* what the help calls its value; null if it takes none */
    int is_number;     /* whether the value is a number of 32 bits */
    const char *needs; /* what is to stand beside it; null: nothing */
    const char *never; /* what may not; null: nothing */
};

struct program {
    const char *name;
    const char *help;
    int wants_script;
    struct option options[MOST_OPTIONS + 1]; /* behind the last one stands an empty one */
};

struct choices {
    const char *values[MOST_OPTIONS]; /* of each option: its value, or its name where it takes none; null if it isn't there */
    const char *script;
};

/* Reads a command line: -1, or the status with which the program ends, after it has said why. */
int read_options(const struct program *program, int count, char **words, struct choices *choices);

/* The number that an option has, or another one if it isn't there. */
uint32_t number_of(const char *value, uint32_t other);

#endif
