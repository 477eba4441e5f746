/* MD5 of the texts of its specification (RFC 1321), and of 10,000 times one of them. */
#include "small.h"

static uint32 state[4], words[16];
static byte block[64];
static uint16 filled;
static uint32 bytes;

/* The 64 constants are the first 32 bits of |sin 1|, |sin 2| .. */
static const uint32 constants[64] = {
    0xd76aa478, 0xe8c7b756, 0x242070db, 0xc1bdceee, 0xf57c0faf, 0x4787c62a, 0xa8304613, 0xfd469501,
    0x698098d8, 0x8b44f7af, 0xffff5bb1, 0x895cd7be, 0x6b901122, 0xfd987193, 0xa679438e, 0x49b40821,
    0xf61e2562, 0xc040b340, 0x265e5a51, 0xe9b6c7aa, 0xd62f105d, 0x02441453, 0xd8a1e681, 0xe7d3fbc8,
    0x21e1cde6, 0xc33707d6, 0xf4d50d87, 0x455a14ed, 0xa9e3e905, 0xfcefa3f8, 0x676f02d9, 0x8d2a4c8a,
    0xfffa3942, 0x8771f681, 0x6d9d6122, 0xfde5380c, 0xa4beea44, 0x4bdecfa9, 0xf6bb4b60, 0xbebfbc70,
    0x289b7ec6, 0xeaa127fa, 0xd4ef3085, 0x04881d05, 0xd9d4d039, 0xe6db99e5, 0x1fa27cf8, 0xc4ac5665,
    0xf4292244, 0x432aff97, 0xab9423a7, 0xfc93a039, 0x655b59c3, 0x8f0ccc92, 0xffeff47d, 0x85845dd1,
    0x6fa87e4f, 0xfe2ce6e0, 0xa3014314, 0x4e0811a1, 0xf7537e82, 0xbd3af235, 0x2ad7d2bb, 0xeb86d391};
static const byte turns[16] = {7, 12, 17, 22, 5, 9, 14, 20, 4, 11, 16, 23, 6, 10, 15, 21};

/* Turned left by 4 to 23 places: first by one or none half of it, then place by place. */
static uint32 left(uint32 n, int16 places) {
    if (places >= 16) {
        n = n << 16 | n >> 16;
        places = (int16)(places - 16);
    }
    while (places-- > 0) n = n << 1 | n >> 31;
    return n;
}

static void take_block(void) {
    uint32 a = state[0], b = state[1], c = state[2], d = state[3], mixed;
    int16 at, word;
    for (at = 0; at < 16; at++) {
        const byte *from = block + 4 * at;
        words[at] = (uint32)(uint16)((uint16)from[3] << 8 | from[2]) << 16 | (uint16)((uint16)from[1] << 8 | from[0]);
    }
    for (at = 0; at < 64; at++) {
        if (at < 16) {
            mixed = (b & c) | (~b & d);
            word = at;
        } else if (at < 32) {
            mixed = (b & d) | (c & ~d);
            word = (int16)(5 * at + 1);
        } else if (at < 48) {
            mixed = b ^ c ^ d;
            word = (int16)(3 * at + 5);
        } else {
            mixed = c ^ (b | ~d);
            word = (int16)(7 * at);
        }
        mixed += a + constants[at] + words[word & 15];
        a = d;
        d = c;
        c = b;
        b += left(mixed, turns[(at >> 4) * 4 + (at & 3)]);
    }
    state[0] += a;
    state[1] += b;
    state[2] += c;
    state[3] += d;
    filled = 0;
}

static void take(byte one) {
    block[filled++] = one;
    if (filled == 64) take_block();
}

static void of(const char *from, int16 times) {
    uint32 bits;
    int16 at, place;
    state[0] = 0x67452301;
    state[1] = 0xefcdab89;
    state[2] = 0x98badcfe;
    state[3] = 0x10325476;
    filled = 0;
    bytes = 0;
    while (times--) {
        const char *next = from;
        while (*next) {
            take((byte)*next++);
            bytes++;
        }
    }
    bits = bytes * 8;
    take(0x80);
    while (filled != 56) take(0);
    for (at = 0; at < 4; at++) {
        take((byte)bits);
        bits >>= 8;
    }
    for (at = 0; at < 4; at++) take(0);
    for (at = 0; at < 4; at++) {
        uint32 n = state[at];
        for (place = 0; place < 4; place++) {
            hexadecimal(n & 255, 2);
            n >>= 8;
        }
    }
    put('\n');
}

int main(void) {
    of("", 1);
    of("a", 1);
    of("abc", 1);
    of("message digest", 1);
    of("abcdefghijklmnopqrstuvwxyz", 1);
    of("ABCDEFGHIJKLMNOPQRSTUVWXYZabcdefghijklmnopqrstuvwxyz0123456789", 1);
    of("12345678901234567890123456789012345678901234567890123456789012345678901234567890", 1);
    of("abc", 10000);
    return 0;
}
