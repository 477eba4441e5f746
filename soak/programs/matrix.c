/* Matrices: a product of two of 24 by 24, in 32 bits; powers of a matrix for Fibonacci's numbers; a determinant modulo a
 * prime; a shortest way between all pairs. */
#include "small.h"

#define SIZE 24
#define PRIME 10007

static int16 left[SIZE][SIZE], right[SIZE][SIZE];
static int32 product[SIZE][SIZE];

static void multiply(void) {
    int16 row, column, at;
    for (row = 0; row < SIZE; row++)
        for (column = 0; column < SIZE; column++) {
            int32 sum = 0;
            for (at = 0; at < SIZE; at++) sum += (int32)left[row][at] * right[at][column];
            product[row][column] = sum;
        }
}

static void fibonacci(void) {
    uint32 a = 1, b = 1, c = 0, x = 1, y = 0, z = 1;
    int16 power = 47;
    while (power) {
        if (power & 1) {
            uint32 p = a * x + b * y, q = a * y + b * z;
            z = b * y + c * z;
            x = p;
            y = q;
        }
        {
            uint32 p = a * a + b * b, q = a * b + b * c;
            c = b * b + c * c;
            a = p;
            b = q;
        }
        power >>= 1;
    }
    text("fibonacci 47: ");
    number((int32)y);
    put('\n');
}

static int32 inverse(int32 n) {
    int32 power = PRIME - 2, result = 1;
    while (power) {
        if (power & 1) result = result * n % PRIME;
        n = n * n % PRIME;
        power /= 2;
    }
    return result;
}

static int16 determinant(int16 (*m)[SIZE]) {
    int32 result = 1;
    int16 row, column, at;
    for (column = 0; column < SIZE; column++) {
        int32 scale;
        for (row = column; row < SIZE && m[row][column] % PRIME == 0; row++) {}
        if (row == SIZE) return 0;
        if (row != column) {
            for (at = 0; at < SIZE; at++) {
                int16 taken = m[row][at];
                m[row][at] = m[column][at];
                m[column][at] = taken;
            }
            result = (PRIME - result) % PRIME;
        }
        result = result * m[column][column] % PRIME;
        scale = inverse(m[column][column]);
        for (row = (int16)(column + 1); row < SIZE; row++) {
            int32 factor = m[row][column] * scale % PRIME;
            for (at = column; at < SIZE; at++)
                m[row][at] = (int16)((m[row][at] + (int32)(PRIME - factor) * m[column][at]) % PRIME);
        }
    }
    return (int16)result;
}

static void ways(void) {
    int16 by, from, to;
    uint32 sum = 0;
    for (from = 0; from < SIZE; from++)
        for (to = 0; to < SIZE; to++)
            left[from][to] = (int16)(from == to ? 0 : random_number() % 97 < 12 ? 1 + random_number() % 50 : 9999);
    for (by = 0; by < SIZE; by++)
        for (from = 0; from < SIZE; from++)
            for (to = 0; to < SIZE; to++)
                if (left[from][by] + left[by][to] < left[from][to]) left[from][to] = (int16)(left[from][by] + left[by][to]);
    for (from = 0; from < SIZE; from++)
        for (to = 0; to < SIZE; to++) sum += (uint32)left[from][to];
    text("ways: ");
    number((int32)sum);
    text(", from 0 to 23: ");
    number(left[0][23]);
    put('\n');
}

int main(void) {
    int16 row, column;
    int32 trace = 0;
    random_begin(5);
    for (row = 0; row < SIZE; row++)
        for (column = 0; column < SIZE; column++) {
            left[row][column] = (int16)(random_number() % 2001 - 1000);
            right[row][column] = (int16)(random_number() % 2001 - 1000);
        }
    multiply();
    for (row = 0; row < SIZE; row++) trace += product[row][row];
    text("trace ");
    number(trace);
    text(", corners ");
    number(product[0][0]);
    put(' ');
    number(product[0][SIZE - 1]);
    put(' ');
    number(product[SIZE - 1][0]);
    put(' ');
    number(product[SIZE - 1][SIZE - 1]);
    put('\n');
    fibonacci();
    for (row = 0; row < SIZE; row++)
        for (column = 0; column < SIZE; column++) right[row][column] = (int16)(random_number() % PRIME);
    text("determinant modulo 10007: ");
    number(determinant(right));
    put('\n');
    ways();
    return 0;
}
