/* Bits at variable places: shifts by 0 to all bits but one, of words, longs and bytes, with and without a sign; and a character
 * that is compared with several, of which a compiler may make a test of a bit at a variable place. */
#include "small.h"

/* What the compiler doesn't work out itself. */
#define APART static __attribute__((noinline))

APART uint16 word_right(uint16 w, int16 by) { return w >> by; }
APART uint16 word_left(uint16 w, int16 by) { return (uint16)(w << by); }
APART int16 signed_right(int16 w, int16 by) { return w >> by; }
APART byte byte_right(byte b, int16 by) { return b >> by; }
APART uint32 long_right(uint32 l, int16 by) { return l >> by; }
APART uint32 long_left(uint32 l, int16 by) { return l << by; }
APART int32 signed_long_right(int32 l, int16 by) { return l >> by; }
APART int16 bit_of(uint32 l, int16 place) { return (int16)(l >> place & 1); }

APART int16 is_gap(char c) { return c == ' ' || c == '.' || c == ','; }
APART int16 isnt_gap(char c) { return c != ' ' && c != '.' && c != ','; }
APART int16 is_operator(char c) { return c == '+' || c == '-' || c == '*' || c == '/' || c == '(' || c == ')'; }

APART int16 ends_name(int16 c) {
    switch (c) {
    case 0: case '\t': case '\n': case '\r': return 1;
    default: return 0;
    }
}

APART int16 kind(int16 c) {
    switch (c) {
    case 'a': case 'e': case 'i': case 'o': case 'u': return 1;
    case 'b': case 'd': case 'f': case 'h': case 'k': case 'l': return 2;
    case 'p': return 3;
    default: return 0;
    }
}

static void shown(uint32 n, int16 digits) {
    put(' ');
    hexadecimal(n, digits);
}

static void words(void) {
    static const uint16 some[] = {1, 0x8000, 0xffff, 0xa5c3};
    int16 at, by;
    for (at = 0; at < 4; at++)
        for (by = 0; by < 16; by++) {
            hexadecimal(some[at], 4);
            text(" by ");
            number(by);
            shown(word_right(some[at], by), 4);
            shown(word_left(some[at], by), 4);
            shown((uint16)signed_right((int16)some[at], by), 4);
            shown(byte_right((byte)some[at], by & 7), 2);
            put('\n');
        }
}

static void longs(void) {
    static const uint32 some[] = {1, 0x80000000, 0xffffffff, 0x8a5c3b71};
    int16 at, by;
    for (at = 0; at < 4; at++)
        for (by = 0; by < 32; by++) {
            hexadecimal(some[at], 8);
            text(" by ");
            number(by);
            shown(long_right(some[at], by), 8);
            shown(long_left(some[at], by), 8);
            shown((uint32)signed_long_right((int32)some[at], by), 8);
            shown((uint32)bit_of(some[at], by), 1);
            put('\n');
        }
}

/* The characters of a kind, as numbers. */
static void characters(const char *name, int16 (*is)(char c)) {
    int16 c;
    text(name);
    for (c = 0; c < 128; c++)
        if (is((char)c)) {
            put(' ');
            number(c);
        }
    put('\n');
}

static void cases(void) {
    int16 c;
    text("kinds");
    for (c = -2; c < 130; c++) {
        if (ends_name(c)) text(" end");
        if (kind(c)) {
            put(' ');
            number(kind(c));
            put(':');
            number(c);
        }
    }
    put('\n');
}

int main(void) {
    words();
    longs();
    characters("gaps", is_gap);
    characters("others", isnt_gap);
    characters("operators", is_operator);
    cases();
    return 0;
}
