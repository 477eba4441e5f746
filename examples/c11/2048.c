/* 2048: tiles of a board slide to one side by W, A, S and D, and two alike become one of twice as much. The best score of
 * all games is kept on block 100 of the pack. Q ends the game. */
#include "machine.h"

#define SIZE 4
#define CELLS (SIZE * SIZE)
#define BEST 100
#define MARK 04000

static int16 board[CELLS];
static int32 score;
static int16 is_begun;

/* What block 100 has: a mark, if a score was kept there, and the score. */
static struct {
    uint16 mark;
    int32 best;
    byte rest[506];
} kept;

/* The next key, as a small letter. When the first one comes decides about the tiles. */
static int16 command(void) {
    uint16 waited = 1;
    int16 typed;
    while (!has_key()) waited++;
    if (!is_begun) random_begin(waited);
    is_begun = 1;
    typed = key();
    return (int16)(typed >= 'A' && typed <= 'Z' ? typed + 'a' - 'A' : typed);
}

/* A 2, or with one chance in ten a 4, on one of the free cells. */
static void add_tile(void) {
    int16 at, left = 0;
    for (at = 0; at < CELLS; at++) left += !board[at];
    if (!left) return;
    left = (int16)(random_number() % left);
    for (at = 0; board[at] || left--; at++) continue;
    board[at] = random_number() % 10 ? 2 : 4;
}

static void padded(int16 n) {
    int16 width = 6, left = n;
    do {
        width--;
        left /= 10;
    } while (left);
    while (width--) put(' ');
    if (n) number(n);
    else put('.');
}

static void show(void) {
    int16 at;
    text("\nScore ");
    number(score);
    text(", best ");
    number(kept.best);
    put('\n');
    for (at = 0; at < CELLS; at++) {
        padded(board[at]);
        if (at % SIZE == SIZE - 1) put('\n');
    }
    text("W A S D, Q: ");
}

/* Slides a row whose cells begin at AT, each BY from the one before; whether a tile moved. */
static int16 slide(int16 at, int16 by) {
    int16 from = at, to = at, merged = -1, moved = 0, left;
    for (left = SIZE; left--; from = (int16)(from + by)) {
        int16 tile = board[from];
        if (!tile) continue;
        board[from] = 0;
        if (to != at && merged != to - by && board[to - by] == tile) {
            merged = (int16)(to - by);
            board[merged] = (int16)(2 * tile);
            score += 2 * (int32)tile;
            moved = 1;
        } else {
            board[to] = tile;
            moved |= to != from;
            to = (int16)(to + by);
        }
    }
    return moved;
}

static int16 slide_all(int16 typed) {
    int16 row, moved = 0;
    for (row = 0; row < SIZE; row++) switch (typed) {
        case 'a': moved |= slide((int16)(SIZE * row), 1); break;
        case 'd': moved |= slide((int16)(SIZE * row + SIZE - 1), -1); break;
        case 'w': moved |= slide(row, SIZE); break;
        case 's': moved |= slide((int16)(CELLS - SIZE + row), -SIZE); break;
    }
    return moved;
}

static void keep_best(void) {
    if (score <= kept.best) return;
    kept.mark = MARK;
    kept.best = score;
    text(write_block(BEST, &kept) ? "The pack can't be written.\n" : "That is the best score so far.\n");
}

int main(void) {
    int16 typed;
    if (read_block(BEST, &kept) || kept.mark != MARK) fill(&kept, 0, sizeof kept);
    text("2048. Press a key.");
    command();
    add_tile();
    add_tile();
    for (;;) {
        show();
        typed = command();
        put((char)typed);
        if (typed == 'q') break;
        if (slide_all(typed)) add_tile();
    }
    put('\n');
    keep_best();
    return 0;
}
