/* The functions of strings and symbols. */
#include "strings.h"

#include "text.h"

#define LONGEST 33

int16 is_same_text(value one, value other) {
    struct characters a = characters_of(one), b = characters_of(other);
    int16 c;
    do {
        c = next_character(&a);
        if (c != next_character(&b)) return 0;
    } while (c);
    return 1;
}

static int16 wants_string(value v) {
    if (!is_a(STRING, v)) fault_about(v, "isn't a string");
    return !wrong;
}

value do_string_append(value given) {
    string_begin();
    for (; given != NIL && wants_string(head(given)); given = tail(given)) {
        struct characters of = characters_of(head(given));
        int16 c;
        while (!wrong && (c = next_character(&of)) != 0) string_add(c);
    }
    return string_end();
}

/* (substring text from to): the characters from one place on up to another; the first is at 0. */
value do_substring(value given) {
    value from = head(tail(given)), to = head(tail(tail(given)));
    struct characters of;
    int16 at, c;
    if (!wants_string(head(given))) return NIL;
    if (!(from & 1)) fault_about(from, "isn't a place in a string");
    if (!(to & 1)) fault_about(to, "isn't a place in a string");
    string_begin();
    of = characters_of(head(given));
    for (at = 0; !wrong && at < to >> 1 && (c = next_character(&of)) != 0; at++)
        if (at >= from >> 1) string_add(c);
    return string_end();
}

value do_number_to_string(value given) {
    char digits[12];
    int16 at = 0, is_negative;
    int32 n;
    if (!is_number(head(given))) fault_about(head(given), "isn't a number");
    if (wrong) return NIL;
    n = number_in(head(given));
    is_negative = n < 0;
    if (is_negative) n = -n;
    do {
        digits[at++] = (char)('0' + (int16)(n % 10));
        n /= 10;
    } while (n);
    if (is_negative) digits[at++] = '-';
    string_begin();
    while (at) string_add(digits[--at]);
    return string_end();
}

/* The number that a string of decimal digits is, or nil. */
value do_string_to_number(value given) {
    struct characters of;
    int32 n = 0;
    int16 c, digits = 0, is_negative;
    if (!wants_string(head(given))) return NIL;
    of = characters_of(head(given));
    c = next_character(&of);
    is_negative = c == '-';
    if (is_negative) c = next_character(&of);
    for (; c >= '0' && c <= '9' && digits < 9; c = next_character(&of), digits++) n = n * 10 + (c - '0');
    if (c || !digits) return NIL;
    return number_of(is_negative ? -n : n);
}

value do_symbol_to_string(value given) {
    if (!is_a(SYMBOL, head(given))) fault_about(head(given), "isn't a symbol");
    return wrong ? NIL : cell(STRING, head(head(given)), NIL);
}

value do_string_to_symbol(value given) {
    char name[LONGEST];
    if (!wants_string(head(given))) return NIL;
    copy_string(head(given), name, LONGEST);
    return symbol_named(name);
}
