/* multiply-test: 20,000,000 products of multiply.c beside those of the machine's own compiler. Factors of 0 and of ones
 * alone are among them. Exit status 1: one differs. */
#include <stdio.h>

typedef unsigned long long u64;
typedef unsigned __int128 u128;
u128 multi3(u128 a, u128 b);

enum { PRODUCTS = 20000000 };

static u64 draw(void) {
    static u64 seed = 1;
    seed = seed * 6364136223846793005u + 1442695040888963407u;
    switch (seed >> 60) {
    case 1: return 0;
    case 2: return ~0ull;
    default: return seed >> 30 ^ seed << 11;
    }
}

int main(void) {
    for (long i = 0; i < PRODUCTS; i++) {
        u128 a = (u128)draw() << 64 | draw(), b = (u128)draw() << 64 | draw();
        if (multi3(a, b) != a * b) return puts("multiply-test: a product differs"), 1;
    }
    printf("multiply-test: %d products agree\n", PRODUCTS);
    return 0;
}
