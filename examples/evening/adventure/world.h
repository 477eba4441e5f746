/* The world of the adventure: its tables in memory, and its texts, which are read from the pack as they are typed. */
#ifndef WORLD_H
#define WORLD_H

#include "small.h"

enum { NOWHERE = 0, HERE = 254, CARRIED = 255 };
enum { FIXED = 1, HIDDEN = 2, OUTDOORS = 4, INDOORS = 1 };
enum { WORD_VERB = 1, WORD_THING };
#define DIRECTIONS 8
#define LETTERS 8

/* The tables as world.py writes them. A text is known by its place among the texts; 0 is none. */
struct head {
    uint16 mark, rooms, things, words, rules, code, start, points, title, intro, won, tables;
};
struct room {
    uint16 title, text;
    byte exits[DIRECTIONS];
    uint16 flags;
};
struct thing {
    uint16 title, here, look;
    byte place, flags;
};
struct word {
    char letters[LETTERS];
    byte kind, number;
};
struct rule {
    byte verb, one, other, unused;
    uint16 code;
};

/* Reads the tables: 0, or a fault of catalogue.h. */
int16 world_begin(void);

/* The parts of the world; rooms and things have numbers from 1 on. */
extern struct head world;
const struct room *room_at(int16 number);
const struct thing *thing_at(int16 number);
const struct word *word_at(int16 number);
const struct rule *rule_at(int16 number);
const byte *code_at(uint16 place);

/* Types a text of the pack, or of the program, in lines of at most 72 characters; a backslash begins a new line. */
void say(uint16 place);
void tell(const char *from);

/* Ends the line that a text has begun. */
void new_line(void);

#endif
