/* The functions of numbers. */
#include "numbers.h"

#include "functions.h"
#include "text.h"

#define GREATEST 0x7fffffff

static int32 wanted(value v) {
    if (!is_number(v)) fault_about(v, "isn't a number");
    return wrong ? 0 : number_in(v);
}

static void too_large(void) {
    fault("the result is beyond 2147483647");
}

static int32 sum(int32 a, int32 b) {
    if (b > 0 ? a > GREATEST - b : a < -GREATEST - b) too_large();
    return wrong ? 0 : a + b;
}

static int32 product(int32 a, int32 b) {
    int32 size = b < 0 ? -b : b;
    if (size && (a < 0 ? -a : a) > GREATEST / size) too_large();
    return wrong ? 0 : a * b;
}

value do_plus(value given) {
    int32 n = 0;
    for (; given != NIL; given = tail(given)) n = sum(n, wanted(head(given)));
    return number_of(n);
}

value do_minus(value given) {
    int32 n = wanted(head(given));
    if (tail(given) == NIL) return number_of(-n);
    for (given = tail(given); given != NIL; given = tail(given)) n = sum(n, -wanted(head(given)));
    return number_of(n);
}

value do_times(value given) {
    int32 n = 1;
    for (; given != NIL; given = tail(given)) n = product(n, wanted(head(given)));
    return number_of(n);
}

/* The second of two numbers, which divides. */
static int32 divisor(value given) {
    int32 n = wanted(head(tail(given)));
    if (!wrong && n == 0) fault("division by 0");
    return wrong ? 1 : n;
}

value do_divide(value given) {
    int32 n = wanted(head(given));
    return number_of(n / divisor(given));
}

/* The remainder, with the divisor's sign. */
value do_mod(value given) {
    int32 by = divisor(given), n = wanted(head(given)) % by;
    if (n && (n < 0) != (by < 0)) n += by;
    return number_of(n);
}

/* Whether each number and the one behind it are in this order: -1, 0 and 1 stand for less, the same and greater. */
static value is_ordered(value given, int16 from, int16 to) {
    int32 one = wanted(head(given)), other;
    for (given = tail(given); given != NIL; given = tail(given), one = other) {
        int16 order;
        other = wanted(head(given));
        order = one < other ? -1 : one > other;
        if (order < from || order > to) return NIL;
    }
    return truth(1);
}

value do_same(value given) {
    return is_ordered(given, 0, 0);
}

value do_less(value given) {
    return is_ordered(given, -1, -1);
}

value do_greater(value given) {
    return is_ordered(given, 1, 1);
}

value do_at_most(value given) {
    return is_ordered(given, -1, 0);
}

value do_at_least(value given) {
    return is_ordered(given, 0, 1);
}

/* A number from 0 to one less than N. */
value do_random(value given) {
    int32 n = wanted(head(given));
    if (n < 1 || n > 32767) fault_about(head(given), "isn't from 1 to 32767");
    return wrong ? NIL : number_of(random_number() % (int16)n);
}
