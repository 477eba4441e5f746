/* A small Lisp: cells of two words, numbers of 15 bits, symbols, lambda with static scope, a collector that marks and
 * sweeps; and a program in it: factorials, reversal, sorting by insertion, Ackermann's function, a counter in a closure. */
#include "small.h"

/* A value is even for a cell's or a symbol's number times 4, 2 more for a symbol, and odd for a number. */
typedef int16 value;

#define CELLS 3000
#define SYMBOLS 60
#define ROOTS 400
#define NIL 0

static value heads[CELLS], tails[CELLS];
static byte marked[CELLS];
static char names[SYMBOLS][10];
static value globals[SYMBOLS];
static int16 symbols, free_cell, free_count, collections;
static value roots[ROOTS];
static int16 depth;
static const char *from;

static value number_of(int16 n) {
    return (value)(n * 2 + 1);
}

static int16 is_number(value v) {
    return v & 1;
}

static int16 is_symbol(value v) {
    return (v & 3) == 2;
}

static int16 is_cell(value v) {
    return v != NIL && (v & 3) == 0;
}

static void stop(const char *why) {
    text("lisp: ");
    text(why);
    put('\n');
    leave();
}

static void mark(value v) {
    while (is_cell(v) && !marked[v >> 2]) {
        marked[v >> 2] = 1;
        mark(heads[v >> 2]);
        v = tails[v >> 2];
    }
}

static void collect(void) {
    int16 at;
    fill(marked, 0, CELLS);
    for (at = 0; at < depth; at++) mark(roots[at]);
    for (at = 0; at < symbols; at++) mark(globals[at]);
    free_cell = 0;
    free_count = 0;
    for (at = CELLS - 1; at > 0; at--)
        if (!marked[at]) {
            tails[at] = free_cell;
            free_cell = at;
            free_count++;
        }
    collections++;
    if (free_count < 10) stop("no cells are left");
}

static value *keep(value v) {
    if (depth == ROOTS) stop("too deep");
    roots[depth] = v;
    return &roots[depth++];
}

static value cons(value head, value tail) {
    int16 cell;
    if (!free_cell) {
        keep(head);
        keep(tail);
        collect();
        depth = (int16)(depth - 2);
    }
    cell = free_cell;
    free_cell = tails[cell];
    heads[cell] = head;
    tails[cell] = tail;
    return (value)(cell << 2);
}

static value head(value v) {
    if (!is_cell(v)) stop("no list");
    return heads[v >> 2];
}

static value tail(value v) {
    if (!is_cell(v)) stop("no list");
    return tails[v >> 2];
}

static value symbol(const char *name, int16 length) {
    int16 at, place;
    for (at = 0; at < symbols; at++) {
        for (place = 0; place < length && names[at][place] == name[place]; place++) {}
        if (place == length && !names[at][place]) return (value)(at << 2 | 2);
    }
    if (symbols == SYMBOLS || length > 9) stop("too many symbols");
    for (place = 0; place < length; place++) names[symbols][place] = name[place];
    names[symbols][length] = 0;
    return (value)(symbols++ << 2 | 2);
}

static value read(void);

static value read_list(void) {
    value *first;
    value result;
    while (*from == ' ') from++;
    if (*from == ')') {
        from++;
        return NIL;
    }
    first = keep(read());
    result = read_list();
    result = cons(*first, result);
    depth--;
    return result;
}

static value read(void) {
    const char *begin;
    while (*from == ' ') from++;
    if (*from == '(') {
        from++;
        return read_list();
    }
    if (*from >= '0' && *from <= '9') {
        int16 n = 0;
        while (*from >= '0' && *from <= '9') n = (int16)(n * 10 + (*from++ - '0'));
        return number_of(n);
    }
    begin = from;
    while (*from && *from != ' ' && *from != '(' && *from != ')') from++;
    return symbol(begin, (int16)(from - begin));
}

static void print(value v) {
    if (is_number(v)) number(v >> 1);
    else if (is_symbol(v)) text(names[v >> 2]);
    else {
        put('(');
        while (is_cell(v)) {
            print(head(v));
            v = tail(v);
            if (v != NIL) put(' ');
        }
        put(')');
    }
}

enum { QUOTE, IF, LAMBDA, DEFINE, SET, PLUS, MINUS, TIMES, LESS, EQUAL, CONS, HEAD, TAIL, PROCEDURE, BUILT_IN };
static const char *const built_in[] = {"quote", "if", "lambda", "define", "set", "+", "-", "*", "<", "=", "cons", "head",
                                       "tail", "#proc"};

static value *place_of(value name, value scope) {
    for (; scope != NIL; scope = tail(scope))
        if (head(head(scope)) == name) return &tails[head(scope) >> 2];
    return &globals[name >> 2];
}

static value evaluate(value what, value scope);

static value apply_built_in(int16 which, value one, value other) {
    switch (which) {
    case PLUS: return number_of((int16)((one >> 1) + (other >> 1)));
    case MINUS: return number_of((int16)((one >> 1) - (other >> 1)));
    case TIMES: return number_of((int16)((one >> 1) * (other >> 1)));
    case LESS: return one < other ? number_of(1) : NIL;
    case EQUAL: return one == other ? number_of(1) : NIL;
    case CONS: return cons(one, other);
    case HEAD: return head(one);
    case TAIL: return tail(one);
    default: stop("no such function"); return NIL;
    }
}

/* The values of a list of expressions. */
static value all(value list, value scope) {
    value *first;
    value rest;
    if (list == NIL) return NIL;
    keep(list);
    keep(scope);
    first = keep(evaluate(head(list), scope));
    rest = all(tail(list), scope);
    rest = cons(*first, rest);
    depth = (int16)(depth - 3);
    return rest;
}

static value evaluate(value what, value scope) {
    int16 began = depth;
    value *now = keep(what), *here = keep(scope);
    for (;;) {
        value function, given, result;
        if (is_number(*now) || *now == NIL) {
            result = *now;
        } else if (is_symbol(*now)) {
            result = *place_of(*now, *here);
        } else {
            function = head(*now);
            if (is_symbol(function) && (function >> 2) == QUOTE) {
                result = head(tail(*now));
            } else if (is_symbol(function) && (function >> 2) == IF) {
                value rest = tail(tail(*now));
                *now = evaluate(head(tail(*now)), *here) != NIL ? head(rest) : head(tail(rest));
                continue;
            } else if (is_symbol(function) && (function >> 2) == LAMBDA) {
                result = cons(symbol("#proc", 5), cons(*here, tail(*now)));
            } else if (is_symbol(function) && (function >> 2) == DEFINE) {
                result = evaluate(head(tail(tail(*now))), *here);
                globals[head(tail(*now)) >> 2] = result;
            } else if (is_symbol(function) && (function >> 2) == SET) {
                result = evaluate(head(tail(tail(*now))), *here);
                *place_of(head(tail(*now)), *here) = result;
            } else {
                value *arguments = keep(all(tail(*now), *here));
                if (is_symbol(function) && (function >> 2) < PROCEDURE) {
                    value other = is_cell(tail(*arguments)) ? head(tail(*arguments)) : NIL;
                    result = apply_built_in(function >> 2, head(*arguments), other);
                } else {
                    value *procedure = keep(evaluate(function, *here));
                    value *inner = keep(head(tail(*procedure)));
                    value wanted = head(tail(tail(*procedure)));
                    for (given = *arguments; wanted != NIL; wanted = tail(wanted), given = tail(given)) {
                        value pair = cons(head(wanted), head(given));
                        *inner = cons(pair, *inner);
                    }
                    *now = head(tail(tail(tail(*procedure))));
                    *here = *inner;
                    depth = (int16)(began + 2);
                    continue;
                }
            }
        }
        depth = began;
        return result;
    }
}

static const char *const program[] = {
    "(define fact (lambda (n) (if (< n 2) 1 (* n (fact (- n 1))))))",
    "(fact 7)",
    "(define rev (lambda (l done) (if l (rev (tail l) (cons (head l) done)) done)))",
    "(rev (quote (a b (c d) 4 5)) (quote ()))",
    "(define range (lambda (n) (if (= n 0) (quote ()) (cons n (range (- n 1))))))",
    "(range 12)",
    "(define map (lambda (f l) (if l (cons (f (head l)) (map f (tail l))) l)))",
    "(map (lambda (n) (* n n)) (range 12))",
    "(define put (lambda (n l) (if l (if (< n (head l)) (cons n l) (cons (head l) (put n (tail l)))) (cons n l))))",
    "(define sort (lambda (l) (if l (put (head l) (sort (tail l))) l)))",
    "(sort (quote (31 4 15 92 65 35 89 79 32 38 46 26)))",
    "(define fib (lambda (n) (if (< n 2) n (+ (fib (- n 1)) (fib (- n 2))))))",
    "(map fib (range 14))",
    "(define ack (lambda (m n) (if (= m 0) (+ n 1) (if (= n 0) (ack (- m 1) 1) (ack (- m 1) (ack m (- n 1)))))))",
    "(ack 2 5)",
    "(define counter (lambda (n) (lambda (by) (set n (+ n by)))))",
    "(define tick (counter 10))",
    "(tick 1)",
    "(tick 31)",
    "(define loop (lambda (n sum) (if (= n 0) sum (loop (- n 1) (+ sum (head (cons n n)))))))",
    "(loop 100 0)",
    "(define twice (lambda (f) (lambda (x) (f (f x)))))",
    "((twice (twice (lambda (n) (+ n n)))) 3)",
    "(((twice twice) (lambda (n) (+ n n))) 3)"};

int main(void) {
    int16 at;
    for (at = 0; at < BUILT_IN - 1; at++) {
        int16 length = 0;
        while (built_in[at][length]) length++;
        symbol(built_in[at], length);
    }
    symbol("#proc", 5);
    collect();
    for (at = 0; at < (int16)(sizeof program / sizeof *program); at++) {
        value *result;
        from = program[at];
        result = keep(read());
        *result = evaluate(*result, NIL);
        if (!(is_cell(*result) && head(*result) == symbol("#proc", 5))) {
            print(*result);
            put('\n');
        }
        depth = 0;
    }
    text(collections > 3 ? "collected\n" : "never collected\n");
    return 0;
}
