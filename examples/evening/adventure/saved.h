/* A game on the pack. */
#ifndef SAVED_H
#define SAVED_H

#include "small.h"

/* Asks for a name, and writes the game into a file of it, or takes it up from there; whether it was taken up. */
void save_game(void);
int16 restore_game(void);

#endif
