/* The console of a program that is built for the host. */
#include <stdio.h>
#include <stdlib.h>

#include "small.h"

void emit(int16 c);

void emit(int16 c) {
    putchar(c);
}

void leave(void) {
    exit(0);
}
