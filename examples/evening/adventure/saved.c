/* A saved game is the state as it lies in memory, with a mark. */
#include "saved.h"

#include "catalogue.h"
#include "game.h"
#include "talk.h"

#define MARK 041520

/* Asks for a file's name: whether one was typed. */
static int16 asked(char *name) {
    text("Name of the game: ");
    if (read_line(name, NAME + 2) > 0) return 1;
    text("Nothing is done.\n");
    return 0;
}

static void told(int16 fault, const char *done) {
    text(fault ? why(fault) : done);
    text(fault ? ".\n" : "\n");
}

void save_game(void) {
    char name[NAME + 2];
    if (!asked(name)) return;
    now.mark = MARK;
    told(write_file(name, FILE_GAME, &now, sizeof now), "Saved. RESTORE and this name take it up again.");
}

int16 restore_game(void) {
    char name[NAME + 2];
    struct state saved;
    uint16 length = 0;
    int16 fault;
    if (!asked(name)) return 0;
    fault = read_file(name, &saved, sizeof saved, &length);
    if (!fault && (length != sizeof saved || saved.mark != MARK)) fault = TOO_LONG;
    if (fault == TOO_LONG) text("That isn't a saved game.\n");
    else told(fault, "Restored.");
    if (!fault) now = saved;
    return !fault;
}
