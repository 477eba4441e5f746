/* Recursion and bits: the queens of 8 by 8, the towers of Hanoi, permutations, Ackermann's function, a knight's tour by
 * Warnsdorf's rule. */
#include "small.h"

static int16 first[8], solutions;

static int16 queens(int16 row, byte columns, uint16 up, uint16 down) {
    static int16 places[8];
    int16 column, found = 0;
    if (row == 8) {
        if (!solutions++) copy(first, places, sizeof first);
        return 1;
    }
    for (column = 0; column < 8; column++) {
        byte bit = (byte)(1 << column);
        uint16 rising = (uint16)(1u << (row + column)), falling = (uint16)(1u << (row - column + 7));
        if (columns & bit || up & rising || down & falling) continue;
        places[row] = column;
        found = (int16)(found + queens((int16)(row + 1), columns | bit, up | rising, down | falling));
    }
    return found;
}

static uint32 moves;
static uint16 towers;

static void hanoi(int16 disks, int16 from, int16 to) {
    if (disks == 0) return;
    hanoi((int16)(disks - 1), from, (int16)(3 - from - to));
    moves++;
    towers = (uint16)(towers * 3u + (uint16)(from * 3 + to));
    hanoi((int16)(disks - 1), (int16)(3 - from - to), to);
}

static char letters[] = "abcdef";
static uint16 permuted;

static void permute(int16 at) {
    int16 with;
    if (at == 6) {
        if (permuted++ % 120 == 77) {
            text(letters);
            put(' ');
        }
        return;
    }
    for (with = at; with < 6; with++) {
        char taken = letters[at];
        letters[at] = letters[with];
        letters[with] = taken;
        permute((int16)(at + 1));
        letters[with] = letters[at];
        letters[at] = taken;
    }
}

static int16 ackermann(int16 m, int16 n) {
    if (m == 0) return (int16)(n + 1);
    if (n == 0) return ackermann((int16)(m - 1), 1);
    return ackermann((int16)(m - 1), ackermann(m, (int16)(n - 1)));
}

static int16 board[8][8];
static const int16 across[8] = {1, 2, 2, 1, -1, -2, -2, -1}, along[8] = {2, 1, -1, -2, -2, -1, 1, 2};

static int16 is_free(int16 row, int16 column) {
    return row >= 0 && row < 8 && column >= 0 && column < 8 && !board[row][column];
}

static int16 ways(int16 row, int16 column) {
    int16 to, count = 0;
    for (to = 0; to < 8; to++) count = (int16)(count + is_free((int16)(row + across[to]), (int16)(column + along[to])));
    return count;
}

static int16 tour(void) {
    int16 row = 0, column = 0, step, to;
    for (step = 1;; step++) {
        int16 best = -1, least = 9;
        board[row][column] = step;
        for (to = 0; to < 8; to++) {
            int16 r = (int16)(row + across[to]), c = (int16)(column + along[to]);
            if (is_free(r, c) && ways(r, c) < least) {
                least = ways(r, c);
                best = to;
            }
        }
        if (best < 0) return step;
        row = (int16)(row + across[best]);
        column = (int16)(column + along[best]);
    }
}

int main(void) {
    int16 at, other;
    number(queens(0, 0, 0, 0));
    text(" ways to put eight queens, the first:");
    for (at = 0; at < 8; at++) {
        put(' ');
        number(first[at]);
    }
    hanoi(12, 0, 2);
    text("\nhanoi 12: ");
    number((int32)moves);
    text(" moves, ");
    hexadecimal(towers, 4);
    text("\npermutations: ");
    permute(0);
    number(permuted);
    text("\nackermann 2 9: ");
    number(ackermann(2, 9));
    text("\nknight: ");
    number(tour());
    text(" fields\n");
    for (at = 0; at < 8; at++)
        for (other = 0; other < 8; other++) {
            if (board[at][other] < 10) put(' ');
            number(board[at][other]);
            put(other < 7 ? ' ' : '\n');
        }
    return 0;
}
