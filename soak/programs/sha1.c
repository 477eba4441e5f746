/* SHA-1 of the standard's texts: of "abc", of a text of 448 bits, of 100,000 times "a". */
#include "small.h"

static uint32 state[5], words[80];
static byte block[64];
static uint16 filled;
static uint32 bytes;

static uint32 left_5(uint32 n) {
    return n << 5 | n >> 27;
}

static uint32 left_30(uint32 n) {
    return n << 30 | n >> 2;
}

static uint32 left_1(uint32 n) {
    return n << 1 | n >> 31;
}

static void take_block(void) {
    uint32 a = state[0], b = state[1], c = state[2], d = state[3], e = state[4], next;
    int16 at;
    for (at = 0; at < 16; at++) {
        const byte *from = block + 4 * at;
        words[at] = (uint32)(uint16)((uint16)from[0] << 8 | from[1]) << 16 | (uint16)((uint16)from[2] << 8 | from[3]);
    }
    for (at = 16; at < 80; at++)
        words[at] = left_1(words[at - 3] ^ words[at - 8] ^ words[at - 14] ^ words[at - 16]);
    for (at = 0; at < 80; at++) {
        next = left_5(a) + e + words[at];
        if (at < 20) next += ((b & c) | (~b & d)) + 0x5a827999;
        else if (at < 40) next += (b ^ c ^ d) + 0x6ed9eba1;
        else if (at < 60) next += ((b & c) | (b & d) | (c & d)) + 0x8f1bbcdc;
        else next += (b ^ c ^ d) + 0xca62c1d6;
        e = d;
        d = c;
        c = left_30(b);
        b = a;
        a = next;
    }
    state[0] += a;
    state[1] += b;
    state[2] += c;
    state[3] += d;
    state[4] += e;
    filled = 0;
}

static void begin(void) {
    state[0] = 0x67452301;
    state[1] = 0xefcdab89;
    state[2] = 0x98badcfe;
    state[3] = 0x10325476;
    state[4] = 0xc3d2e1f0;
    filled = 0;
    bytes = 0;
}

static void take(byte one) {
    block[filled++] = one;
    if (filled == 64) take_block();
}

static void end(void) {
    uint32 bits = bytes * 8;
    int16 at;
    take(0x80);
    while (filled != 56) take(0);
    for (at = 0; at < 4; at++) take(0);
    take((byte)(bits >> 24));
    take((byte)(bits >> 16));
    take((byte)(bits >> 8));
    take((byte)bits);
    for (at = 0; at < 5; at++) {
        hexadecimal(state[at], 8);
        put(at < 4 ? ' ' : '\n');
    }
}

static void of(const char *from, uint32 times) {
    begin();
    while (times--) {
        const char *at = from;
        while (*at) {
            take((byte)*at++);
            bytes++;
        }
    }
    end();
}

int main(void) {
    of("abc", 1);
    of("", 1);
    of("abcdbcdecdefdefgefghfghighijhijkijkljklmklmnlmnomnopnopq", 1);
    of("a", 100000);
    return 0;
}
