/* The yardstick: 20,000,000 look-ups in a table of 65,536 entries, each at the place that the one before gave.
   Writes the look-ups per second. */
#include <stdint.h>
#include <stdio.h>
#include <time.h>

enum { ENTRIES = 65536, LOOK_UPS = 20000000 };

static uint32_t table[ENTRIES];

/* Fills the table with one round through all its places, in an order that a fixed generator of numbers gives. */
static void fill(void) {
    uint32_t number = 1;
    for (uint32_t place = 0; place < ENTRIES; place++)
        table[place] = place;
    for (uint32_t last = ENTRIES - 1; last > 0; last--) {
        number = number * 1664525u + 1013904223u;
        uint32_t other = (number >> 8) % last;
        uint32_t entry = table[last];
        table[last] = table[other];
        table[other] = entry;
    }
}

static double seconds(void) {
    struct timespec now;
    clock_gettime(CLOCK_MONOTONIC, &now);
    return (double)now.tv_sec + (double)now.tv_nsec / 1e9;
}

int main(void) {
    fill();
    uint32_t place = 0;
    double start = seconds();
    for (uint32_t count = 0; count < LOOK_UPS; count++)
        place = table[place];
    double taken = seconds() - start;
    printf("%.0f\n", LOOK_UPS / taken);
    /* The last place decides the status, so that no look-up can be left out: it is always a place of the table. */
    return place < ENTRIES ? 0 : 1;
}
