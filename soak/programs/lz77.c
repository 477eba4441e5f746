/* Packs a text of 20,000 bytes by LZ77 with a window of 4,096 bytes, found by a table of the last place of each three
 * letters; unpacks it through a ring of the window's size, and compares each byte with the text. */
#include "small.h"

#define LENGTH 20000
#define WINDOW 4096
#define HASHES 1024
#define LONGEST 18

static byte given[LENGTH], packed[12000], ring[WINDOW];
static uint16 heads[HASHES], packed_length;

static const char *const words[] = {"the ", "drive ", "holds ", "a ", "pack ", "of ", "sectors, ", "and ", "each ",
                                    "sector ", "has ", "256 ", "words. ", "A ", "turn ", "of the ", "machine ", "moves ",
                                    "one ", "from ", "disk ", "to ", "memory; ", "then ", "it ", "asks ", "for an ",
                                    "interrupt. ", "Nothing ", "else ", "is ", "so."};

static void make(void) {
    uint16 at = 0;
    while (at < LENGTH) {
        const char *word = words[random_number() >> 10];
        while (*word && at < LENGTH) given[at++] = (byte)*word++;
    }
}

static uint16 hash(const byte *at) {
    return (uint16)((at[0] * 61u + at[1] * 7u + at[2]) & (HASHES - 1));
}

/* A group is a byte of marks and up to eight tokens: a literal byte (0), or distance and length in two bytes (1). */
static void pack(void) {
    uint16 at = 0, marks_at = 0, out = 0, mark = 256;
    while (at < LENGTH) {
        uint16 best = 0, from = 0;
        if (mark == 256) {
            marks_at = out;
            packed[out++] = 0;
            mark = 1;
        }
        if (at + 3 <= LENGTH) {
            uint16 slot = hash(given + at), place = heads[slot];
            heads[slot] = (uint16)(at + 1);
            if (place && at + 1 - place < WINDOW) {
                const byte *one = given + place - 1, *other = given + at;
                uint16 most = (uint16)(LENGTH - at < LONGEST ? LENGTH - at : LONGEST);
                while (best < most && one[best] == other[best]) best++;
                from = (uint16)(at + 1 - place);
            }
        }
        if (best >= 3) {
            packed[marks_at] |= (byte)mark;
            packed[out++] = (byte)from;
            packed[out++] = (byte)((from >> 8) << 4 | (best - 3));
            at = (uint16)(at + best);
        } else {
            packed[out++] = given[at++];
        }
        mark = (uint16)(mark << 1);
    }
    packed_length = out;
}

static uint16 unpack(void) {
    uint16 in = 0, at = 0, wrong = 0, marks = 0, left = 0;
    while (in < packed_length) {
        if (!left) {
            marks = packed[in++];
            left = 8;
        }
        if (marks & 1) {
            uint16 from = (uint16)(packed[in] | (uint16)(packed[in + 1] & 0xf0) << 4), length = (packed[in + 1] & 15) + 3;
            in = (uint16)(in + 2);
            while (length--) {
                byte one = ring[(uint16)(at - from) & (WINDOW - 1)];
                ring[at & (WINDOW - 1)] = one;
                if (given[at++] != one) wrong++;
            }
        } else {
            ring[at & (WINDOW - 1)] = packed[in];
            if (given[at++] != packed[in++]) wrong++;
        }
        marks >>= 1;
        left--;
    }
    return at == LENGTH ? wrong : 9999;
}

int main(void) {
    int16 at;
    random_begin(1977);
    make();
    text("text:   ");
    number(LENGTH);
    text(" bytes, ");
    hexadecimal(checksum(given, LENGTH), 8);
    text("\n        ");
    for (at = 0; at < 60; at++) put((char)given[at]);
    pack();
    text("\npacked: ");
    number(packed_length);
    text(" bytes, ");
    hexadecimal(checksum(packed, packed_length), 8);
    text("\nwrong after unpacking: ");
    number(unpack());
    put('\n');
    return 0;
}
