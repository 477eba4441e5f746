/* Cells, and a collector that marks by turning pointers around (Deutsch, Schorr and Waite), so that it needs no stack. */
#include "heap.h"

#define MARKED 0200
#define IN_TAIL 0100
#define KIND 077
#define RESERVE 64

value heads[CELLS], tails[CELLS];
byte kinds[CELLS];
value stack[DEEPEST + SPARE];
int16 depth;
value symbols[SYMBOL_LISTS];
value expression, scope, result, call;
const char *wrong;
value wrong_value;
int16 wrong_has_value;
static value free_list, new_head, new_tail;
static int16 free_count;

void fault(const char *what) {
    if (wrong) return;
    wrong = what;
    wrong_has_value = 0;
}

void fault_about(value v, const char *what) {
    if (wrong) return;
    wrong = what;
    wrong_value = v;
    wrong_has_value = 1;
}

int16 is_a(enum kind kind, value v) {
    return !(v & 1) && kinds[v >> 1] == kind;
}

value head(value v) {
    return v & 1 ? NIL : heads[v >> 1];
}

value tail(value v) {
    return v & 1 ? NIL : tails[v >> 1];
}

void set_head(value v, value to) {
    heads[v >> 1] = to;
}

void set_tail(value v, value to) {
    tails[v >> 1] = to;
}

/* Goes into a cell for the first time: the value to look at next, or the cell again if it leads nowhere. While its head
 * or its tail is looked at, that place has the cell from which the mark came here. */
static value entered(value v, value *before) {
    int16 at = (int16)(v >> 1);
    byte kind = kinds[at];
    value next;
    kinds[at] |= MARKED;
    if (kind == LONG) return v;
    if (kind == BYTES) {
        kinds[at] |= IN_TAIL;
        next = tails[at];
        tails[at] = *before;
    } else {
        next = heads[at];
        heads[at] = *before;
    }
    *before = v;
    return next;
}

/* Goes on from a cell whose head is done to its tail. */
static value over(value v, value done) {
    int16 at = (int16)(v >> 1);
    value next = tails[at];
    tails[at] = heads[at];
    heads[at] = done;
    kinds[at] |= IN_TAIL;
    return next;
}

static void mark(value v) {
    value before = NIL, up;
    for (;;) {
        while (!(v & 1) && !(kinds[v >> 1] & MARKED)) {
            value next = entered(v, &before);
            if (next == v) break;
            v = next;
        }
        while (before != NIL && kinds[before >> 1] & IN_TAIL) {
            kinds[before >> 1] &= (byte)~IN_TAIL;
            up = tails[before >> 1];
            tails[before >> 1] = v;
            v = before;
            before = up;
        }
        if (before == NIL) return;
        v = over(before, v);
    }
}

static void mark_all(void) {
    int16 at;
    kinds[NIL >> 1] |= MARKED;
    kinds[UNBOUND >> 1] |= MARKED;
    for (at = 0; at < depth; at++) mark(stack[at]);
    for (at = 0; at < SYMBOL_LISTS; at++) mark(symbols[at]);
    mark(expression);
    mark(scope);
    mark(result);
    mark(call);
    mark(new_head);
    mark(new_tail);
    if (wrong && wrong_has_value) mark(wrong_value);
}

int16 collect(void) {
    int16 at;
    mark_all();
    free_list = NIL;
    free_count = 0;
    for (at = CELLS - 1; at >= 0; at--) {
        if (kinds[at] & MARKED) {
            kinds[at] &= KIND;
            continue;
        }
        kinds[at] = FREE;
        tails[at] = free_list;
        free_list = (value)(at << 1);
        free_count++;
    }
    return free_count;
}

value cell(enum kind kind, value head, value tail) {
    value made;
    new_head = kind == BYTES || kind == LONG ? NIL : head;
    new_tail = kind == LONG ? NIL : tail;
    if (free_count <= RESERVE && !wrong && collect() <= RESERVE) fault("memory is full");
    if (free_list == NIL) {
        /* a fault stops the evaluation long before it has used the reserve */
        fault("memory is full");
        return UNBOUND;
    }
    made = free_list;
    free_list = tails[made >> 1];
    free_count--;
    kinds[made >> 1] = (byte)kind;
    heads[made >> 1] = head;
    tails[made >> 1] = tail;
    return made;
}

value cons(value head, value tail) {
    return cell(PAIR, head, tail);
}

void heap_begin(void) {
    fill(kinds, FREE, sizeof kinds);
    fill(symbols, 0, sizeof symbols);
    heads[0] = tails[0] = heads[1] = tails[1] = NIL;
    kinds[NIL >> 1] = kinds[UNBOUND >> 1] = EMPTY;
    depth = 0;
    expression = scope = result = call = new_head = new_tail = NIL;
    collect();
}

int16 cells_used(void) {
    int16 at = CELLS;
    while (kinds[at - 1] == FREE) at--;
    return at;
}

void cells_set(int16 count) {
    fill(kinds + count, FREE, (uint16)(CELLS - count));
    collect();
}

void push(value v) {
    if (depth >= DEEPEST) fault("too deep: too many calls wait for one another");
    if (depth < DEEPEST + SPARE) stack[depth++] = v;
}

value pop(void) {
    return stack[--depth];
}
