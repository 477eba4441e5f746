/* The state of a game, and what a command does to it. */
#ifndef GAME_H
#define GAME_H

#include "world.h"

#define MOST_THINGS 96
#define MOST_FLAGS 32

/* All that changes in a game, as it is saved. */
struct state {
    uint16 mark;
    int16 room, score, turns;
    byte places[MOST_THINGS]; /* where each thing is */
    byte moved[MOST_THINGS];  /* whether it was ever taken, so that it is listed by its title alone */
    byte flags[MOST_FLAGS];
    byte is_won;
};
extern struct state now;

/* The engine's verbs, by the numbers that world.py gives them; the first eight are the directions. */
enum verb { GO_FIRST = 1, GO_LAST = 8, LOOK, EXAMINE, INVENTORY, TAKE, DROP, GO, SCORE, SAVE, RESTORE, QUIT, HELP, AGAIN, PUT };

/* The beginning of a game. */
void game_begin(void);

/* Whether a thing is where the player can reach it. */
int16 is_present(int16 thing);

/* Does a command: a verb, with up to two things or 0. ALL stands for everything that can be taken or dropped. */
#define ALL 255
void act(int16 verb, int16 one, int16 other);

/* Types the room: its title, its description, what is in it. */
void look(void);

#endif
