/* The tables lie in one array, one behind the other; the block of the texts that was read last is kept. */
#include "world.h"

#include "catalogue.h"

#define MARK 040514
#define WORLD "LOCKS.DAT"
#define ROOM 8704
#define COLUMNS 72
#define WORD_ROOM 32

struct head world;
static struct file file;
static union {
    struct head head;
    byte bytes[ROOM];
} tables;
static byte block[BLOCK];
static uint16 block_number, text_block;
static int16 column, blank_waits;

static const byte *rooms, *things, *words, *rules, *code;

int16 world_begin(void) {
    uint16 at, blocks;
    int16 fault = find_file(WORLD, &file);
    if (fault) return fault;
    fault = read_part(&file, 0, tables.bytes);
    world = tables.head;
    blocks = (uint16)((world.tables + sizeof world + BLOCK - 1) / BLOCK);
    if (!fault && (world.mark != MARK || blocks > ROOM / BLOCK)) fault = NO_FILE;
    for (at = 1; !fault && at < blocks; at++) fault = read_part(&file, at, tables.bytes + at * BLOCK);
    text_block = blocks;
    rooms = tables.bytes + sizeof world;
    things = rooms + world.rooms * sizeof(struct room);
    words = things + world.things * sizeof(struct thing);
    rules = words + world.words * sizeof(struct word);
    code = rules + world.rules * sizeof(struct rule);
    return fault;
}

const struct room *room_at(int16 number) {
    return (const struct room *)(const void *)rooms + (number - 1);
}

const struct thing *thing_at(int16 number) {
    return (const struct thing *)(const void *)things + (number - 1);
}

const struct word *word_at(int16 number) {
    return (const struct word *)(const void *)words + number;
}

const struct rule *rule_at(int16 number) {
    return (const struct rule *)(const void *)rules + number;
}

const byte *code_at(uint16 place) {
    return code + place;
}

void new_line(void) {
    if (column) put('\n');
    column = 0;
    blank_waits = 0;
}

/* A word of a text, and a blank in front of it if one waits; on a new line if it doesn't fit. */
static void put_word(const char *word, int16 length) {
    if (!length) return;
    if (column + blank_waits + length > COLUMNS) new_line();
    if (column && blank_waits) {
        put(' ');
        column++;
    }
    blank_waits = 0;
    column = (int16)(column + length);
    while (length--) put(*word++);
}

/* Takes the characters of a text one by one, and types each word as soon as it is whole. */
static void take(char c) {
    static char word[WORD_ROOM];
    static int16 length;
    if (c > ' ' && c != '\\' && length < WORD_ROOM) {
        word[length++] = c;
        return;
    }
    put_word(word, length);
    length = 0;
    if (c == '\\') new_line();
    if (c == ' ') blank_waits = 1;
}

void tell(const char *from) {
    while (*from) take(*from++);
    take(0);
}

/* The character of the texts at a place. */
static char character_at(uint16 place) {
    uint16 wanted = (uint16)(text_block + place / BLOCK);
    if (block_number != wanted) {
        int16 fault = read_part(&file, wanted, block);
        block_number = fault ? 0 : wanted;
        if (fault) {
            fill(block, 0, BLOCK);
            tell(why(fault));
        }
    }
    return (char)block[place % BLOCK];
}

void say(uint16 place) {
    char c;
    if (!place) return;
    do take(c = character_at(place++));
    while (c);
}
