/* Numbers that fit into a value and those that need a cell; characters two by two in cells; the lists of symbols. */
#include "text.h"

#define SMALLEST (-16384)
#define GREATEST 16383

int16 is_number(value v) {
    return v & 1 || is_a(LONG, v);
}

int32 number_in(value v) {
    if (v & 1) return v >> 1;
    return (int32)((uint32)(uint16)head(v) << 16 | (uint16)tail(v));
}

value number_of(int32 n) {
    if (n >= SMALLEST && n <= GREATEST) return (value)(n * 2 + 1);
    return cell(LONG, (value)(n >> 16), (value)n);
}

struct characters characters_of(value v) {
    struct characters of = {head(v), 0};
    return of;
}

int16 next_character(struct characters *of) {
    int16 c;
    if (of->at == NIL) return 0;
    c = of->is_second ? (int16)((uint16)head(of->at) >> 8) : head(of->at) & 0377;
    if (of->is_second || !c) of->at = tail(of->at);
    of->is_second = !of->is_second;
    return c;
}

int16 length_of(value v) {
    struct characters of = characters_of(v);
    int16 length = 0;
    while (next_character(&of)) length++;
    return length;
}

void copy_string(value v, char *to, int16 room) {
    struct characters of = characters_of(v);
    while (--room && (*to = (char)next_character(&of))) to++;
    *to = 0;
}

/* The string that is being made is on the stack: itself, and its last BYTES. */
static int16 is_half;

void string_begin(void) {
    push(cell(STRING, NIL, NIL));
    push(NIL);
    is_half = 0;
}

void string_add(int16 c) {
    value last = stack[depth - 1], more;
    if (wrong) return;
    if (is_half) {
        set_head(last, (value)((uint16)head(last) | (uint16)c << 8));
        is_half = 0;
        return;
    }
    more = cell(BYTES, c, NIL);
    last = stack[depth - 1];
    if (last == NIL) set_head(stack[depth - 2], more);
    else set_tail(last, more);
    stack[depth - 1] = more;
    is_half = 1;
}

value string_end(void) {
    pop();
    return pop();
}

static int16 is_named(value v, const char *name, int16 length) {
    struct characters of = characters_of(v);
    while (length--)
        if (next_character(&of) != *name++) return 0;
    return next_character(&of) == 0;
}

value symbol(const char *name, int16 length) {
    int16 list = 0, at;
    value v;
    for (at = 0; at < length; at++) list = (int16)(list * 7 + name[at]);
    list &= SYMBOL_LISTS - 1;
    for (v = symbols[list]; v != NIL; v = tail(v))
        if (is_named(head(v), name, length)) return head(v);
    string_begin();
    for (at = 0; at < length; at++) string_add(name[at]);
    v = string_end();
    v = cell(SYMBOL, head(v), UNBOUND);
    symbols[list] = cons(v, symbols[list]);
    return v;
}

value symbol_named(const char *name) {
    int16 length = 0;
    while (name[length]) length++;
    return symbol(name, length);
}
