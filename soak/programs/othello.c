/* Othello against itself: black looks two plies ahead, white one, by the worth of the fields; the game is written down. */
#include "small.h"

typedef signed char field;
enum { NONE = 0, BLACK = 1, WHITE = -1, EDGE = 2 };

static field board[100];
static const signed char worth[64] = {
    50, -10, 8, 6, 6, 8, -10, 50, -10, -20, -2, -2, -2, -2, -20, -10, 8, -2, 4, 1, 1, 4, -2, 8, 6, -2, 1, 1, 1, 1, -2, 6,
    6, -2, 1, 1, 1, 1, -2, 6, 8, -2, 4, 1, 1, 4, -2, 8, -10, -20, -2, -2, -2, -2, -20, -10, 50, -10, 8, 6, 6, 8, -10, 50};
static const signed char ways[8] = {-11, -10, -9, -1, 1, 9, 10, 11};

static field *worth_at(int16 place) {
    return (field *)&worth[(place / 10 - 1) * 8 + place % 10 - 1];
}

/* How many a move of a side at a place turns; they are turned if it is made. */
static int16 turned(int16 place, field side, int16 is_made) {
    int16 way, all = 0;
    if (board[place] != NONE) return 0;
    for (way = 0; way < 8; way++) {
        int16 step = ways[way], at = (int16)(place + step), count = 0;
        while (board[at] == -side) {
            at = (int16)(at + step);
            count++;
        }
        if (count && board[at] == side) {
            all = (int16)(all + count);
            if (is_made)
                while (at != place) {
                    at = (int16)(at - step);
                    board[at] = side;
                }
        }
    }
    return all;
}

static int16 balance(field side) {
    int16 place, sum = 0, moves = 0;
    for (place = 11; place < 89; place++) {
        if (board[place] == BLACK) sum = (int16)(sum + *worth_at(place));
        else if (board[place] == WHITE) sum = (int16)(sum - *worth_at(place));
        else if (board[place] == NONE && turned(place, side, 0)) moves++;
    }
    return (int16)((side == BLACK ? sum : -sum) + moves);
}

/* The best move of a side, so many plies ahead: its place, or 0; and its value. */
static int16 best(field side, int16 plies, int16 *value) {
    int16 place, found = 0;
    field kept[100];
    copy(kept, board, sizeof kept);
    *value = -9999;
    for (place = 11; place < 89; place++) {
        int16 now;
        if (!turned(place, side, 1)) continue;
        if (plies > 1 && best((field)-side, (int16)(plies - 1), &now)) now = (int16)-now;
        else now = balance(side);
        copy(board, kept, sizeof kept);
        if (now > *value) {
            *value = now;
            found = place;
        }
    }
    return found;
}

int main(void) {
    int16 at, passed = 0, moves = 0, black = 0, white = 0;
    field side = BLACK;
    fill(board, EDGE, sizeof board);
    for (at = 10; at < 90; at = (int16)(at + 10)) fill(board + at + 1, NONE, 8);
    board[44] = board[55] = WHITE;
    board[45] = board[54] = BLACK;
    while (passed < 2) {
        int16 value, place = best(side, side == BLACK ? 2 : 1, &value);
        if (place) {
            turned(place, side, 1);
            put((char)('a' + place % 10 - 1));
            put((char)('0' + place / 10));
            passed = 0;
        } else {
            text("--");
            passed++;
        }
        put(++moves % 20 ? ' ' : '\n');
        side = (field)-side;
    }
    put('\n');
    for (at = 11; at < 89; at++) {
        if (board[at] == EDGE) continue;
        if (board[at] == BLACK) black++;
        if (board[at] == WHITE) white++;
        put(board[at] == BLACK ? '*' : board[at] == WHITE ? 'o' : '.');
        if (at % 10 == 8) put('\n');
    }
    text("black ");
    number(black);
    text(", white ");
    number(white);
    put('\n');
    return 0;
}
