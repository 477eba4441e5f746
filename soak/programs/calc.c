/* A compiler of arithmetic and loops to a machine with a stack, and that machine: reads the programs below, shows how many
 * words each is, and runs it. */
#include "small.h"

enum { PUSH, LOAD, STORE, ADD, SUBTRACT, MULTIPLY, DIVIDE, MODULO, LESS, EQUAL, JUMP, UNLESS, PRINT, END };

static int32 code[400], stack[40], variables[26];
static int16 length;
static const char *at;

static void expression(void);

static void blanks(void) {
    while (*at == ' ') at++;
}

static int16 is_next(char c) {
    blanks();
    if (*at != c) return 0;
    at++;
    return 1;
}

static void gives(int32 word) {
    code[length++] = word;
}

static void factor(void) {
    blanks();
    if (*at >= '0' && *at <= '9') {
        int32 n = 0;
        while (*at >= '0' && *at <= '9') n = n * 10 + (*at++ - '0');
        gives(PUSH);
        gives(n);
    } else if (is_next('(')) {
        expression();
        is_next(')');
    } else if (is_next('-')) {
        gives(PUSH);
        gives(0);
        factor();
        gives(SUBTRACT);
    } else {
        gives(LOAD);
        gives(*at++ - 'a');
    }
}

static void term(void) {
    factor();
    for (;;) {
        if (is_next('*')) {
            factor();
            gives(MULTIPLY);
        } else if (is_next('/')) {
            factor();
            gives(DIVIDE);
        } else if (is_next('%')) {
            factor();
            gives(MODULO);
        } else {
            return;
        }
    }
}

static void sum(void) {
    term();
    for (;;) {
        if (is_next('+')) {
            term();
            gives(ADD);
        } else if (is_next('-')) {
            term();
            gives(SUBTRACT);
        } else {
            return;
        }
    }
}

static void expression(void) {
    sum();
    if (is_next('<')) {
        sum();
        gives(LESS);
    } else if (is_next('=')) {
        sum();
        gives(EQUAL);
    }
}

/* ?e is print, w(e){..} while, i(e){..} if, x:e an assignment. */
static void statement(void) {
    blanks();
    if (is_next('?')) {
        expression();
        gives(PRINT);
    } else if ((*at == 'w' || *at == 'i') && at[1] == '(') {
        int16 begin = length, hole, is_loop = *at == 'w';
        at += 2;
        expression();
        is_next(')');
        gives(UNLESS);
        hole = length;
        gives(0);
        is_next('{');
        while (!is_next('}')) statement();
        if (is_loop) {
            gives(JUMP);
            gives(begin);
        }
        code[hole] = length;
    } else {
        int16 name = (int16)(*at++ - 'a');
        is_next(':');
        expression();
        gives(STORE);
        gives(name);
    }
    is_next(';');
}

static uint32 run(void) {
    int32 *top = stack;
    int16 next = 0;
    uint32 steps = 0;
    for (;;) {
        steps++;
        switch (code[next++]) {
        case PUSH: *++top = code[next++]; break;
        case LOAD: *++top = variables[code[next++]]; break;
        case STORE: variables[code[next++]] = *top--; break;
        case ADD: top--; top[0] = (int32)((uint32)top[0] + (uint32)top[1]); break;
        case SUBTRACT: top--; top[0] = (int32)((uint32)top[0] - (uint32)top[1]); break;
        case MULTIPLY: top--; top[0] = (int32)((uint32)top[0] * (uint32)top[1]); break;
        case DIVIDE: top--; top[0] = top[0] / top[1]; break;
        case MODULO: top--; top[0] = top[0] % top[1]; break;
        case LESS: top--; top[0] = top[0] < top[1]; break;
        case EQUAL: top--; top[0] = top[0] == top[1]; break;
        case JUMP: next = (int16)code[next]; break;
        case UNLESS: next = *top-- ? (int16)(next + 1) : (int16)code[next]; break;
        case PRINT: put(' '); number(*top--); break;
        default: return steps;
        }
    }
}

static const char *const programs[] = {
    "?1+2*3; ?(1+2)*3; ?-7/2; ?-7%2; ?100000*100000; ?1-2-3; ?2147483647/10; ?-2147483647%1000;",
    "a:1; b:1; w(a<2000000000){?a; c:a+b; a:b; b:c; i(b<0){a:2000000000}}",
    "n:27; s:0; w(1<n){i(n%2=0){n:n/2; s:s+1} i(n%2=1){i(1<n){n:3*n+1; s:s+1}}} ?s;",
    "a:123456; b:7890; w(0<b){t:a%b; a:b; b:t} ?a;",
    "n:2; c:0; w(n<400){d:2; p:1; w(d*d<n+1){i(n%d=0){p:0} d:d+1} c:c+p; n:n+1} ?c;",
    "x:1000000; r:1; w(r*r<x){r:r+1} ?r; ?x/r;",
    "s:0; k:1; w(k<301){s:s+1000000/(k*k); k:k+1} ?s;"};

int main(void) {
    int16 each;
    for (each = 0; each < 7; each++) {
        uint32 steps;
        length = 0;
        at = programs[each];
        blanks();
        while (*at) {
            statement();
            blanks();
        }
        gives(END);
        number(length);
        text(" words:");
        steps = run();
        text(", in ");
        number((int32)steps);
        text(" steps\n");
    }
    return 0;
}
