/* Sorts 3,000 numbers by quicksort, and by insertion where a part is short; then names by pointers. */
#include "small.h"

#define COUNT 3000

static int16 numbers[COUNT];
static uint16 compares;

static void insert(int16 *from, int16 *to) {
    int16 *at, *place;
    for (at = from + 1; at <= to; at++) {
        int16 taken = *at;
        for (place = at; place > from && (compares++, place[-1] > taken); place--) *place = place[-1];
        *place = taken;
    }
}

static void sort(int16 *from, int16 *to) {
    while (to - from > 12) {
        int16 *low = from, *high = to, middle = from[(to - from) / 2];
        while (low <= high) {
            while (compares++, *low < middle) low++;
            while (compares++, *high > middle) high--;
            if (low <= high) {
                int16 taken = *low;
                *low++ = *high;
                *high-- = taken;
            }
        }
        if (high - from < to - low) {
            sort(from, high);
            from = low;
        } else {
            sort(low, to);
            to = high;
        }
    }
    insert(from, to);
}

static const char *names[] = {"delta", "alpha", "echo", "golf", "bravo", "hotel", "charlie", "foxtrot", "alphabet", "a"};

static int16 is_behind(const char *a, const char *b) {
    while (*a && *a == *b) a++, b++;
    return *a > *b;
}

int main(void) {
    int16 at, other, is_sorted = 1;
    uint32 sum = 0;
    random_begin(17);
    for (at = 0; at < COUNT; at++) {
        numbers[at] = (int16)(random_number() - 16384);
        sum += (uint32)(int32)numbers[at];
    }
    text("before: ");
    hexadecimal(checksum(numbers, sizeof numbers), 8);
    sort(numbers, numbers + COUNT - 1);
    for (at = 1; at < COUNT; at++)
        if (numbers[at - 1] > numbers[at]) is_sorted = 0;
    for (at = 0; at < COUNT; at++) sum -= (uint32)(int32)numbers[at];
    text("\nafter:  ");
    hexadecimal(checksum(numbers, sizeof numbers), 8);
    text(is_sorted ? "\nsorted, sum " : "\nNOT sorted, sum ");
    number((int32)sum);
    text(", compares ");
    number(compares);
    text("\nlowest ");
    number(numbers[0]);
    text(", highest ");
    number(numbers[COUNT - 1]);
    text(", each 300th:");
    for (at = 0; at < COUNT; at = (int16)(at + 300)) {
        put(' ');
        number(numbers[at]);
    }
    put('\n');
    for (at = 0; at < 10; at++)
        for (other = 0; other < 9 - at; other++)
            if (is_behind(names[other], names[other + 1])) {
                const char *taken = names[other];
                names[other] = names[other + 1];
                names[other + 1] = taken;
            }
    for (at = 0; at < 10; at++) {
        text(names[at]);
        put(at < 9 ? ' ' : '\n');
    }
    return 0;
}
