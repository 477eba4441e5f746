/* 2048: tiles slide to one side, two alike become one of twice as much. The best score is kept in a file on the pack. */
#include "catalogue.h"
#include "talk.h"

#define SIDE 4
#define CELLS (SIDE * SIDE)
#define GOAL 2048
#define BEST "2048.BEST"
#define MARK 0x2048

static int16 board[CELLS];
static int32 score;
static int16 is_won;

/* What the file of the best score has. */
static struct best {
    uint16 mark, unused;
    int32 score;
} best;

static void rules(void) {
    text("2048\n\n"
         "Tiles lie on a board of 4 by 4. A key slides all of them to one side: W up, S\n"
         "down, A left, D right; the arrows of a VT52 or VT100 do too. Two tiles alike\n"
         "that meet become one, worth both, and its worth is added to your score. After\n"
         "each move a new 2 or 4 appears. Make a tile of 2048. The game is over when\n"
         "nothing can move. Q ends it; the best score stays on the pack.\n\n"
         "Press a key: each key begins another game.");
}

/* The letter of an arrow, of which escape has come: ESC A or ESC [ A and so on. */
static int16 arrow(void) {
    int16 typed = next_key();
    if (typed == '[' || typed == 'O') typed = next_key();
    switch (typed) {
    case 'A': return 'W';
    case 'B': return 'S';
    case 'C': return 'D';
    case 'D': return 'A';
    default: return 0;
    }
}

static int16 command(void) {
    int16 typed = next_key();
    if (typed == CONTROL_C) return 'Q';
    return typed == 033 ? arrow() : capital((char)typed);
}

/* A 2, or with one chance in ten a 4, on one of the free cells. */
static void add_tile(void) {
    int16 at, left = 0;
    for (at = 0; at < CELLS; at++) left += !board[at];
    if (!left) return;
    left = (int16)(random_number() % left);
    for (at = 0; board[at] || left--; at++) continue;
    board[at] = random_number() % 10 ? 2 : 4;
}

static void padded(int16 n) {
    int16 width = 6, left = n;
    for (; left; left /= 10) width--;
    if (!n) width--;
    while (width--) put(' ');
    if (n) number(n);
    else put('.');
}

static void show(void) {
    int16 at;
    text("\nScore ");
    number(score);
    text(", best ");
    number(best.score);
    put('\n');
    for (at = 0; at < CELLS; at++) {
        padded(board[at]);
        if (at % SIDE == SIDE - 1) put('\n');
    }
    text("W A S D, Q: ");
}

/* Pushes the tiles of a row to its front, whose cells are FROM, FROM + BY and so on: whether one moved. */
static int16 slide(int16 from, int16 by) {
    int16 at, moved = 0, front = from, is_mergeable = 0, left = SIDE;
    for (at = from; left--; at = (int16)(at + by)) {
        int16 tile = board[at];
        if (!tile) continue;
        board[at] = 0;
        if (is_mergeable && board[front - by] == tile) {
            board[front - by] = (int16)(2 * tile);
            score += board[front - by];
            is_won |= board[front - by] == GOAL;
            is_mergeable = 0;
            moved = 1;
            continue;
        }
        moved |= front != at;
        board[front] = tile;
        front = (int16)(front + by);
        is_mergeable = 1;
    }
    return moved;
}

/* Slides all rows by a letter: whether a tile moved. */
static int16 slide_all(int16 letter) {
    int16 row, moved = 0;
    for (row = 0; row < SIDE; row++) switch (letter) {
        case 'A': moved |= slide((int16)(SIDE * row), 1); break;
        case 'D': moved |= slide((int16)(SIDE * row + SIDE - 1), -1); break;
        case 'W': moved |= slide(row, SIDE); break;
        case 'S': moved |= slide((int16)(CELLS - SIDE + row), -SIDE); break;
    }
    return moved;
}

/* Whether a cell is free, or two tiles alike are beside one another. */
static int16 can_move(void) {
    int16 at;
    for (at = 0; at < CELLS; at++) {
        if (!board[at]) return 1;
        if (at % SIDE < SIDE - 1 && board[at] == board[at + 1]) return 1;
        if (at < CELLS - SIDE && board[at] == board[at + SIDE]) return 1;
    }
    return 0;
}

static void read_best(void) {
    uint16 length = 0;
    if (read_file(BEST, &best, sizeof best, &length) || best.mark != MARK || length != sizeof best) fill(&best, 0, sizeof best);
}

static void keep_best(void) {
    int16 fault;
    if (score <= best.score) return;
    best.mark = MARK;
    best.score = score;
    fault = write_file(BEST, FILE_DATA, &best, sizeof best);
    text("That is the best score so far.\n");
    if (!fault) return;
    text("It can't be kept: ");
    text(why(fault));
    text(".\n");
}

/* Plays up to Q or to the end. */
static void play(void) {
    int16 typed, was_told = 0;
    add_tile();
    add_tile();
    for (;;) {
        show();
        if (!can_move()) {
            text("\nNothing can move: the game is over.\n");
            return;
        }
        typed = command();
        put((char)typed);
        if (typed == 'Q') break;
        if (slide_all(typed)) add_tile();
        if (is_won && !was_told) {
            text("\n2048! You have won, and may go on.");
            was_told = 1;
        }
    }
    put('\n');
}

int main(void) {
    read_best();
    rules();
    next_key();
    random_begin(keys_mixed());
    play();
    keep_best();
    text("Press a key.");
    next_key();
    return 0;
}
