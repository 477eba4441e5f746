/* Types values. Lists may be circular: Ctrl-C stops, and what is nested too deep is typed as .. . */
#include "printer.h"

#include "evaluator.h"
#include "text.h"

#define NESTED 40

#define SHORT 30
#define LONG_ENOUGH 32767

int16 line_is_begun;
static int16 nested;
/* How many values may still be typed. */
static int16 left;

static void characters(value v) {
    struct characters of = characters_of(v);
    int16 c;
    while ((c = next_character(&of)) != 0) {
        put((char)c);
        line_is_begun = c != '\n';
    }
}

static void quoted(value v) {
    struct characters of = characters_of(v);
    int16 c;
    put('"');
    while ((c = next_character(&of)) != 0) {
        if (c == '"' || c == '\\') put('\\');
        if (c == '\n') text("\\n");
        else put((char)c);
    }
    put('"');
}

static void any(value v, int16 is_quoted);

static void elements(value v) {
    any(head(v), 1);
    for (v = tail(v); is_a(PAIR, v); v = tail(v)) {
        if (is_stopped()) return;
        if (left == 0) {
            text(" ..");
            return;
        }
        put(' ');
        any(head(v), 1);
    }
    if (v == NIL) return;
    text(" . ");
    any(v, 1);
}

static void list(value v) {
    if (is_a(PAIR, tail(v)) && head(v) == symbol("quote", 5) && tail(tail(v)) == NIL) {
        put('\'');
        any(head(tail(v)), 1);
        return;
    }
    if (nested == NESTED) {
        text("(..)");
        return;
    }
    nested++;
    put('(');
    elements(v);
    put(')');
    nested--;
}

/* A procedure is typed as the lambda that it was made by. */
static void procedure(value v) {
    text("(lambda ");
    if (nested++ < NESTED) elements(tail(v));
    nested--;
    put(')');
}

static void any(value v, int16 is_quoted) {
    line_is_begun = 1;
    if (left == 0) {
        text("..");
        return;
    }
    left--;
    if (is_number(v)) {
        number(number_in(v));
        return;
    }
    switch (kinds[v >> 1]) {
    case EMPTY: text(v == NIL ? "nil" : "?"); break;
    case SYMBOL: characters(v); break;
    case STRING:
        if (is_quoted) quoted(v);
        else characters(v);
        break;
    case PAIR: list(v); break;
    case PROCEDURE: procedure(v); break;
    default: text(name_of(v)); break;
    }
}

void print(value v) {
    nested = 0;
    left = LONG_ENOUGH;
    any(v, 1);
}

void print_short(value v) {
    nested = 0;
    left = SHORT;
    any(v, 1);
}

void display(value v) {
    nested = 0;
    left = LONG_ENOUGH;
    any(v, 0);
}
