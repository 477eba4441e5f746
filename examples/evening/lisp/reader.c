/* The reader: numbers, symbols, strings, lists, pairs with a point, quotes, and remarks from ; to the end of a line. */
#include "reader.h"

#include "text.h"

#define NESTED 40
#define LONGEST 32
#define NOTHING_READ (-2)
#define GREATEST 0x7fffffff

int16 reader_open;
static int16 (*source)(void);
static int16 held;

static int16 next(void) {
    int16 c = held;
    if (c == NOTHING_READ) return source();
    held = NOTHING_READ;
    return c;
}

/* The next character that isn't a blank or in a remark. */
static int16 next_sign(void) {
    int16 c = next();
    for (;;) {
        if (c == ';')
            while (c != '\n' && c >= 0) c = next();
        if (c != ' ' && c != '\n' && c != '\r' && c != '\t') return c;
        c = next();
    }
}

static int16 ends_a_name(int16 c) {
    return c <= ' ' || c == '(' || c == ')' || c == '"' || c == '\'' || c == ';';
}

static value any(int16 c);

/* The value behind a quote. */
static value quoted(void) {
    value v = any(next_sign());
    v = cons(v, NIL);
    return cons(symbol("quote", 5), v);
}

static value string(void) {
    int16 c;
    string_begin();
    reader_open++;
    while ((c = next()) != '"' && c >= 0 && !wrong) {
        if (c == '\\') {
            c = next();
            if (c == 'n') c = '\n';
        }
        string_add(c);
    }
    reader_open--;
    if (c < 0) fault("the text ends within a string");
    return string_end();
}

/* Puts a value behind the last pair of the list that is on the stack: its first and its last pair. */
static void put_behind(value v) {
    value more = cons(v, NIL);
    if (stack[depth - 1] == NIL) stack[depth - 2] = more;
    else set_tail(stack[depth - 1], more);
    stack[depth - 1] = more;
}

/* What is behind the point of (a . b), and its parenthesis. */
static void put_last(void) {
    value v = any(next_sign());
    if (stack[depth - 1] == NIL) fault("a point needs something in front of it");
    else set_tail(stack[depth - 1], v);
    if (next_sign() != ')') fault("one value is behind a point");
}

static int16 is_point(int16 c) {
    if (c != '.') return 0;
    held = next();
    return ends_a_name(held);
}

static value list(void) {
    int16 c;
    if (reader_open == NESTED) fault("too many parentheses within one another");
    push(NIL);
    push(NIL);
    reader_open++;
    while (!wrong && (c = next_sign()) != ')') {
        if (c < 0) {
            fault("the text ends within a list: ) is missing");
        } else if (is_point(c)) {
            put_last();
            break;
        } else {
            put_behind(any(c));
        }
    }
    reader_open--;
    pop();
    return pop();
}

static int16 is_decimal(const char *name, int16 length) {
    int16 at = name[0] == '-';
    if (at == length) return 0;
    for (; at < length; at++)
        if (name[at] < '0' || name[at] > '9') return 0;
    return 1;
}

static value decimal(const char *name, int16 length) {
    int32 n = 0;
    int16 at;
    for (at = name[0] == '-'; at < length; at++) {
        int16 digit = (int16)(name[at] - '0');
        if (n > (GREATEST - digit) / 10) fault("a number is 2147483647 at most");
        if (wrong) return NIL;
        n = n * 10 + digit;
    }
    return number_of(name[0] == '-' ? -n : n);
}

static value name_or_number(int16 c) {
    char name[LONGEST];
    int16 length = 0;
    name[0] = 0;
    for (; !ends_a_name(c); c = next()) {
        if (length == LONGEST) {
            fault("a name or number has over 32 characters");
            return NIL;
        }
        name[length++] = (char)(c >= 'A' && c <= 'Z' ? c + 'a' - 'A' : c);
    }
    held = c;
    if (is_decimal(name, length)) return decimal(name, length);
    if (same(name, "nil", 3) && length == 3) return NIL;
    return symbol(name, length);
}

static value any(int16 c) {
    if (wrong) return NIL;
    switch (c) {
    case -1: fault("the text ends where a value is wanted"); return NIL;
    case ')': fault(") has no ( in front of it"); return NIL;
    case '\'': return quoted();
    case '"': return string();
    case '(': return list();
    default: return name_or_number(c);
    }
}

void reader_begin(void) {
    held = NOTHING_READ;
}

int16 read_from(int16 (*from)(void), value *v) {
    int16 c;
    source = from;
    reader_open = 0;
    c = next_sign();
    if (c < 0) return 0;
    *v = any(c);
    return 1;
}
