/* 240 digits of pi, by a spigot that gives four digits at a time, and 100 of e. */
#include "small.h"

#define GROUPS 60
#define TERMS (GROUPS * 14)

static int16 rest[TERMS + 1];

static void pi(void) {
    int16 left = TERMS, at, carried = 0;
    for (at = 0; at < TERMS; at++) rest[at] = 2000;
    while (left > 0) {
        uint32 sum = 0;
        int16 group, place;
        for (at = left; at > 0; at--) {
            uint32 by = (uint32)at * 2 - 1;
            sum = sum * (uint32)at + (uint32)rest[at - 1] * 10000;
            rest[at - 1] = (int16)(sum % by);
            sum /= by;
        }
        /* what the division by 2n - 1 of the first term leaves is the next group's */
        group = (int16)(carried + (int16)(sum / 10000));
        carried = (int16)(sum % 10000);
        for (place = 1000; place; place /= 10) put((char)('0' + group / place % 10));
        left = (int16)(left - 14);
    }
    put('\n');
}

static void e(void) {
    int16 digit, at;
    for (at = 0; at < 80; at++) rest[at] = 1;
    text("2.");
    for (digit = 0; digit < 100; digit++) {
        int16 carry = 0;
        for (at = 79; at >= 0; at--) {
            int16 sum = (int16)(rest[at] * 10 + carry);
            carry = (int16)(sum / (at + 2));
            rest[at] = (int16)(sum % (at + 2));
        }
        put((char)('0' + carry));
    }
    put('\n');
}

int main(void) {
    pi();
    e();
    return 0;
}
