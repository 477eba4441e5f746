/* Long numbers in digits of 10,000: 100 factorial, Fibonacci's 500th number, 2 to the 521st less 1, and what divides. */
#include "small.h"

#define DIGITS 50

static int16 one[DIGITS], other[DIGITS], sum[DIGITS];

static void set(int16 *n, int16 to) {
    int16 at;
    n[0] = to;
    for (at = 1; at < DIGITS; at++) n[at] = 0;
}

static void times(int16 *n, int16 by) {
    int32 carry = 0;
    int16 at;
    for (at = 0; at < DIGITS; at++) {
        carry += (int32)n[at] * by;
        n[at] = (int16)(carry % 10000);
        carry /= 10000;
    }
}

static void add(int16 *to, const int16 *n) {
    int16 carry = 0, at;
    for (at = 0; at < DIGITS; at++) {
        carry = (int16)(carry + to[at] + n[at]);
        to[at] = (int16)(carry % 10000);
        carry /= 10000;
    }
}

static int16 remainder_by(const int16 *n, int16 by) {
    int32 rest = 0;
    int16 at;
    for (at = DIGITS - 1; at >= 0; at--) rest = (rest * 10000 + n[at]) % by;
    return (int16)rest;
}

static void print(const int16 *n) {
    int16 at = DIGITS - 1, place;
    while (at > 0 && n[at] == 0) at--;
    number(n[at]);
    while (at-- > 0)
        for (place = 1000; place; place /= 10) put((char)('0' + n[at] / place % 10));
    put('\n');
}

int main(void) {
    int16 at, divisor;
    set(one, 1);
    for (at = 2; at <= 100; at++) times(one, at);
    text("100! = ");
    print(one);
    set(one, 0);
    set(other, 1);
    for (at = 0; at < 500; at++) {
        copy(sum, one, sizeof sum);
        add(sum, other);
        copy(one, other, sizeof one);
        copy(other, sum, sizeof other);
    }
    text("fibonacci 500 = ");
    print(one);
    text("it is divided by");
    for (divisor = 2; divisor < 500; divisor++)
        if (remainder_by(one, divisor) == 0) {
            put(' ');
            number(divisor);
        }
    set(one, 1);
    for (at = 0; at < 521; at++) times(one, 2);
    one[0]--;
    text("\n2^521 - 1 = ");
    print(one);
    return 0;
}
