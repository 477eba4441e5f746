/* Life on a torus of 32 by 32, a row in a word of 32 bits: a glider's way around, and 200 generations of the R pentomino. */
#include "small.h"

#define ROWS 32

static uint32 rows[ROWS], after[ROWS];

static uint32 left(uint32 row) {
    return row << 1 | row >> 31;
}

static uint32 right(uint32 row) {
    return row >> 1 | row << 31;
}

/* The neighbours are counted for all 32 fields of a row at once, in three planes of bits. */
static void generation(void) {
    int16 at;
    for (at = 0; at < ROWS; at++) {
        uint32 near[8], ones = 0, twos = 0, fours = 0;
        uint32 up = rows[(at + ROWS - 1) % ROWS], down = rows[(at + 1) % ROWS], here = rows[at];
        int16 one;
        near[0] = left(up);
        near[1] = up;
        near[2] = right(up);
        near[3] = left(here);
        near[4] = right(here);
        near[5] = left(down);
        near[6] = down;
        near[7] = right(down);
        for (one = 0; one < 8; one++) {
            uint32 carry = ones & near[one], next = twos & carry;
            ones ^= near[one];
            twos ^= carry;
            fours |= next;
        }
        after[at] = twos & ~fours & (ones | here);
    }
    copy(rows, after, sizeof rows);
}

static int16 alive(void) {
    int16 at, count = 0;
    for (at = 0; at < ROWS; at++) {
        uint32 row = rows[at];
        while (row) {
            row &= row - 1;
            count++;
        }
    }
    return count;
}

static void show(int16 first, int16 last) {
    int16 at, column;
    for (at = first; at <= last; at++) {
        uint32 row = rows[at];
        for (column = 0; column < 32; column++) {
            put(row & 0x80000000ul ? '*' : '.');
            row <<= 1;
        }
        put('\n');
    }
}

int main(void) {
    int16 at, round;
    rows[1] = 0x20000000;
    rows[2] = 0x10000000;
    rows[3] = 0x70000000;
    for (round = 0; round < 128; round++) generation();
    text("a glider after 128 generations, where it began: ");
    text(rows[1] == 0x20000000 && rows[2] == 0x10000000 && rows[3] == 0x70000000 && alive() == 5 ? "yes\n" : "no\n");
    for (at = 0; at < ROWS; at++) rows[at] = 0;
    rows[15] = 0x00018000;
    rows[16] = 0x00030000;
    rows[17] = 0x00010000;
    for (round = 1; round <= 200; round++) {
        generation();
        if (round % 25 == 0) {
            number(round);
            text(": ");
            number(alive());
            put(round < 200 ? ' ' : '\n');
        }
    }
    show(0, 31);
    return 0;
}
