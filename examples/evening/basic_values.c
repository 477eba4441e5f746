/* Values: numbers of 16 bits with a sign, and strings. */
#include "basic.h"
#include "talk.h"

#define DEEPEST 16
#define TRUE (-1)

char pool[POOL];
uint16 pool_end;
int16 stop_wanted;
static int16 depth;
/* Whether the expression that begins may be a string alone, and whether it was one. */
static int16 may_be_string, was_string;

void blanks(void) {
    while (*at == ' ') at++;
}

int16 sign(char c) {
    blanks();
    if (*at != c) return 0;
    at++;
    return 1;
}

int16 word(const char *wanted) {
    const char *from;
    blanks();
    for (from = at; *wanted;)
        if (*from++ != *wanted++) return 0;
    at = from;
    return 1;
}

int16 digit_ahead(void) {
    blanks();
    return *at >= '0' && *at <= '9';
}

static int16 in_range(int32 n) {
    if (n < -32768 || n > 32767) {
        fail("The number is too large", "Numbers go from -32767 to 32767");
        return 0;
    }
    return (int16)n;
}

int16 digits(void) {
    int32 n = 0;
    while (*at >= '0' && *at <= '9') {
        n = n * 10 + (*at++ - '0');
        if (n > 32767) return in_range(n);
    }
    return (int16)n;
}

static int16 is_letter(char c) {
    return c >= 'A' && c <= 'Z';
}

int16 name(void) {
    int16 found;
    blanks();
    if (!is_letter(*at)) {
        fail("A variable is missing here", "Write one letter, or a letter and a digit: A or A1 or A$");
        return 0;
    }
    found = (int16)((*at++ - 'A') * 11);
    if (*at >= '0' && *at <= '9') found = (int16)(found + 1 + *at++ - '0');
    if (is_letter(*at) || (*at >= '0' && *at <= '9'))
        fail("BASIC doesn't know this word", "A variable is a letter, or a letter and a digit, as A1; HELP lists the words");
    return found;
}

uint16 variable(int16 *is_string) {
    int16 found = name(), first, second = -1;
    *is_string = *at == '$';
    if (*is_string) at++;
    if (failed) return 0;
    if (!sign('(')) return (uint16)((*is_string ? STRINGS : 0) + 2 * found);
    first = value();
    if (!failed && sign(',')) {
        second = value();
        if (second < 0) second = -2;
    }
    if (failed) return 0;
    if (!sign(')')) {
        fail("A ) is missing", "Write A(I) or A(I,J)");
        return 0;
    }
    return element(found, *is_string, first, second);
}

static const char *const string_functions[] = {"LEFT$", "RIGHT$", "MID$", "CHR$", "STR$", "INKEY$", 0};

int16 string_ahead(void) {
    const char *from, *const *one;
    blanks();
    if (*at == '"') return 1;
    for (one = string_functions; *one; one++) {
        const char *wanted = *one;
        for (from = at; *wanted && *from == *wanted; from++) wanted++;
        if (!*wanted) return 1;
    }
    from = at;
    if (!is_letter(*from++)) return 0;
    if (*from >= '0' && *from <= '9') from++;
    return *from == '$';
}

static void push(char c) {
    if (failed) return;
    if (pool_end == POOL - 1) fail("The strings are too long", "A string has up to 255 characters");
    else pool[pool_end++] = c;
}

const char *pool_text(uint16 start) {
    pool[pool_end] = 0;
    return pool + start;
}

/* The opening and the closing of a function's arguments, and a comma between them. */
static void wanted_sign(char c) {
    if (!failed && !sign(c)) fail("A sign of the function is missing", "Write LEFT$(A$,3) or MID$(A$,2,1) or LEN(A$) or RND(6)");
}

static int16 argument(void) {
    int16 n;
    wanted_sign('(');
    n = failed ? 0 : value();
    wanted_sign(')');
    return n;
}

/* A count of characters behind a comma. */
static int16 length_argument(int16 least) {
    int16 n;
    wanted_sign(',');
    n = failed ? 0 : value();
    if (!failed && n < least) {
        fail("A count of characters is too small", "Places in a string begin at 1: MID$(A$,1,2)");
        return least;
    }
    return n;
}

/* Leaves of the text on the pool from START on only LENGTH characters from FROM on. */
static void cut(uint16 start, uint16 from, uint16 length) {
    uint16 have = (uint16)(pool_end - start);
    if (from > have) from = have;
    if (length > have - from) length = (uint16)(have - from);
    copy(pool + start, pool + start + from, length);
    pool_end = (uint16)(start + length);
}

static void part_of(int16 which) {
    uint16 start, have;
    int16 from = 1, length = LONGEST_STRING;
    wanted_sign('(');
    if (failed) return;
    start = string();
    if (failed) return;
    have = (uint16)(pool_end - start);
    if (which == 2) {
        from = length_argument(1);
        blanks();
        if (!failed && *at == ',') length = length_argument(0);
    } else {
        length = length_argument(0);
        if (which == 1 && (uint16)length < have) from = (int16)(have - length + 1);
    }
    wanted_sign(')');
    if (!failed) cut(start, (uint16)(from - 1), (uint16)length);
}

static void push_number(int16 n) {
    uint16 left = n < 0 ? (uint16)(0u - (uint16)n) : (uint16)n, power = 10000;
    if (n < 0) push('-');
    while (power > 1 && left < power) power /= 10;
    for (; power; power /= 10) push((char)('0' + left / power % 10));
}

static void push_variable(void) {
    int16 is_string;
    uint16 place = variable(&is_string), from, left;
    if (failed) return;
    from = word_at(place);
    if (from)
        for (left = memory[from]; left; left--, from++) push((char)memory[from + 3]);
}

static void push_key(void) {
    int16 typed = any_key();
    if (typed == CONTROL_C) stop_wanted = 1;
    else if (typed) push((char)typed);
}

static void push_item(void) {
    int16 which;
    blanks();
    if (*at == '"') {
        for (at++; *at && *at != '"'; at++) push(*at);
        if (*at) at++;
        return;
    }
    for (which = 0; string_functions[which]; which++)
        if (word(string_functions[which])) break;
    switch (which) {
    case 0:
    case 1:
    case 2: part_of(which); break;
    case 3: {
        int16 n = argument();
        if (!failed && (n < 0 || n > 255)) fail("CHR$ has no such character", "Write CHR$(65) for A; it takes 0 to 255");
        push((char)n);
        break;
    }
    case 4: push_number(argument()); break;
    case 5: push_key(); break;
    default:
        if (string_ahead()) push_variable();
        else fail("A string is missing here", "Write \"TEXT\" or A$; STR$(A) makes a string of a number");
    }
}

uint16 string(void) {
    uint16 start = pool_end;
    if (++depth > DEEPEST) fail("Too many brackets", "Work the parts out one after another");
    else do push_item();
        while (!failed && sign('+'));
    depth--;
    if (!failed && pool_end - start > LONGEST_STRING) fail("The string is too long", "A string has up to 255 characters");
    return start;
}

/* A number from the string in brackets: its length, its first character's code, or what it says. */
static int16 of_string(int16 which) {
    uint16 start;
    int16 n = 0;
    const char *from;
    wanted_sign('(');
    if (failed) return 0;
    start = string();
    wanted_sign(')');
    if (failed) return 0;
    from = pool_text(start);
    if (which == 0) n = (int16)(pool_end - start);
    else if (which == 1) n = (int16)(pool_end == start ? 0 : (byte)*from);
    else if (!read_number(&from, &n)) n = 0;
    pool_end = start;
    return n;
}

static int16 random_argument(void) {
    int16 n = argument();
    if (failed) return 0;
    if (n < 1) {
        fail("RND wants 1 or more", "Write RND(6) for 1 to 6");
        return 0;
    }
    return (int16)(random_number() % n + 1);
}

static int16 bracket(void) {
    int16 n = value();
    if (!failed && !sign(')')) fail("A ) is missing", "Close each ( by a )");
    return n;
}

static int16 simple(void) {
    int16 is_string, n;
    uint16 place;
    if (failed) return 0;
    if (digit_ahead()) return digits();
    if (sign('(')) return bracket();
    if (word("ABS")) {
        n = argument();
        return in_range(n < 0 ? -(int32)n : n);
    }
    if (word("SGN")) {
        n = argument();
        return (int16)(n > 0 ? 1 : n < 0 ? -1 : 0);
    }
    if (word("RND")) return random_argument();
    if (word("LEN")) return of_string(0);
    if (word("ASC")) return of_string(1);
    if (word("VAL")) return of_string(2);
    if (word("FRE")) return (int16)free_bytes();
    if (!is_letter(*at)) {
        fail("A number is missing here", "Write a number, a variable or a function, as 5 or A or ABS(A)");
        return 0;
    }
    if (string_ahead()) {
        fail("A string stands where a number has to be", "Write VAL(A$) or LEN(A$) for a number");
        return 0;
    }
    place = variable(&is_string);
    if (failed) return 0;
    if (is_string) {
        fail("A string stands where a number has to be", "Write VAL(A$) or LEN(A$) for a number");
        return 0;
    }
    return (int16)word_at(place);
}

static int16 signed_value(void) {
    int16 minus = 0, n;
    for (;;)
        if (sign('-')) minus = !minus;
        else if (!sign('+')) break;
    n = simple();
    return minus ? in_range(-(int32)n) : n;
}

static int16 quotient(int16 a, int16 b, int16 rest) {
    if (failed) return 0;
    if (!b) {
        fail("A number can't be divided by 0", "Test it first: IF B<>0 THEN PRINT A/B");
        return 0;
    }
    if (rest) return (int16)(b == -1 ? 0 : a % b);
    return in_range((int32)a / b);
}

static int16 product(void) {
    int16 n = signed_value();
    for (;;) {
        if (failed) return 0;
        if (sign('*')) n = in_range((int32)n * signed_value());
        else if (sign('/')) n = quotient(n, signed_value(), 0);
        else if (word("MOD")) n = quotient(n, signed_value(), 1);
        else return n;
    }
}

static int16 sum(void) {
    int16 n = product();
    for (;;) {
        if (failed) return 0;
        if (sign('+')) n = in_range((int32)n + product());
        else if (sign('-')) n = in_range((int32)n - product());
        else return n;
    }
}

/* A comparison's sign as bits: 1 less, 2 equal, 4 greater; 0 if there is none. */
static int16 comparison(void) {
    int16 found = 0;
    for (;;)
        if (sign('<')) found |= 1;
        else if (sign('=')) found |= 2;
        else if (sign('>')) found |= 4;
        else return found;
}

static int16 order(int16 less, int16 equal) {
    return (int16)(less ? 1 : equal ? 2 : 4);
}

static int16 compared_strings(void) {
    int16 may_be_alone = may_be_string, wanted, found;
    uint16 first, second, one, other;
    may_be_string = 0;
    first = string();
    wanted = failed ? 0 : comparison();
    if (failed) return 0;
    if (!wanted && may_be_alone) {
        was_string = 1;
        return 0;
    }
    if (!wanted) {
        fail("A string stands where a number has to be", "Compare it, as A$=\"YES\", or write VAL(A$)");
        return 0;
    }
    second = string();
    if (failed) return 0;
    for (one = first, other = second; one < second && other < pool_end && pool[one] == pool[other]; one++) other++;
    if (one == second || other == pool_end) found = order(one == second && other < pool_end, one == second && other == pool_end);
    else found = order((byte)pool[one] < (byte)pool[other], 0);
    pool_end = first;
    return (int16)(wanted & found ? TRUE : 0);
}

static int16 relation(void) {
    int16 n, wanted;
    if (string_ahead()) return compared_strings();
    n = sum();
    while (!failed && (wanted = comparison()) != 0) {
        int16 other = sum();
        n = (int16)(wanted & order(n < other, n == other) ? TRUE : 0);
    }
    return n;
}

static int16 negation(void) {
    int16 times = 0, n;
    while (word("NOT")) times = !times;
    n = relation();
    return (int16)(times ? ~n : n);
}

static int16 conjunction(void) {
    int16 n = negation();
    while (!failed && !was_string && word("AND")) n = (int16)(n & negation());
    return n;
}

int16 value(void) {
    int16 n = 0;
    if (++depth > DEEPEST) fail("Too many brackets", "Work the parts out one after another");
    else n = conjunction();
    while (!failed && !was_string && word("OR")) n = (int16)(n | conjunction());
    depth--;
    return n;
}

int16 value_or_string(int16 *n) {
    int16 found;
    may_be_string = string_ahead();
    was_string = 0;
    *n = value();
    found = was_string;
    may_be_string = was_string = 0;
    return found;
}
