/* The table of functions, those of lists, and those that ask what a value is. */
#include "functions.h"

#include "conversation.h"
#include "evaluator.h"
#include "numbers.h"
#include "pack.h"
#include "strings.h"
#include "text.h"

value reversed(value list) {
    value done = NIL, next;
    for (; is_a(PAIR, list); list = next) {
        next = tail(list);
        set_tail(list, done);
        done = list;
    }
    return done;
}

static value first(value given) {
    return head(given);
}

static value second(value given) {
    return head(tail(given));
}

static value do_eval(value given) {
    return first(given);
}

/* (apply f list): the list that is to be called. */
static value do_apply(value given) {
    return cons(first(given), second(given));
}

static value do_cons(value given) {
    return cons(first(given), second(given));
}

static int16 wants_pair(value v) {
    if (is_a(PAIR, v)) return 1;
    fault_about(v, "isn't a list with something in it");
    return 0;
}

static value do_car(value given) {
    return wants_pair(first(given)) ? head(first(given)) : NIL;
}

static value do_cdr(value given) {
    return wants_pair(first(given)) ? tail(first(given)) : NIL;
}

static value do_set_car(value given) {
    if (wants_pair(first(given))) set_head(first(given), second(given));
    return second(given);
}

static value do_set_cdr(value given) {
    if (wants_pair(first(given))) set_tail(first(given), second(given));
    return second(given);
}

static value do_list(value given) {
    return given;
}

static value do_length(value given) {
    value list = first(given);
    int16 length = 0;
    if (is_a(STRING, list)) return number_of(length_of(list));
    for (; is_a(PAIR, list) && !is_stopped(); list = tail(list)) length++;
    if (list != NIL) fault_about(first(given), "isn't a list or a string");
    return number_of(length);
}

static value do_reverse(value given) {
    value list = first(given), done = NIL;
    push(NIL);
    for (; is_a(PAIR, list) && !wrong && !is_stopped(); list = tail(list)) stack[depth - 1] = done = cons(head(list), done);
    if (list != NIL) fault_about(first(given), "isn't a list");
    pop();
    return done;
}

/* The elements of all lists but the last one, which is the rest of the result itself. */
static value do_append(value given) {
    value done = NIL, list;
    push(NIL);
    for (; given != NIL && tail(given) != NIL; given = tail(given)) {
        for (list = first(given); is_a(PAIR, list) && !wrong && !is_stopped(); list = tail(list))
            stack[depth - 1] = done = cons(head(list), done);
        if (list != NIL) fault_about(first(given), "isn't a list");
    }
    list = first(given);
    while (done != NIL) {
        value next = tail(done);
        set_tail(done, list);
        list = done;
        done = next;
    }
    pop();
    return list;
}

static int16 is_equal(value one, value other, int16 nested) {
    for (;; one = tail(one), other = tail(other)) {
        if (one == other) return 1;
        if (is_number(one)) return is_number(other) && number_in(one) == number_in(other);
        if (is_a(STRING, one)) return is_a(STRING, other) && is_same_text(one, other);
        if (!is_a(PAIR, one) || !is_a(PAIR, other) || nested == 40 || is_stopped()) return 0;
        if (!is_equal(head(one), head(other), (int16)(nested + 1))) return 0;
    }
}

static value do_equal(value given) {
    return truth(is_equal(first(given), second(given), 0));
}

static value do_eq(value given) {
    return truth(first(given) == second(given));
}

/* (member x list): the list from x on; (assoc x list): the pair in it that begins with x. */
static value do_member(value given) {
    value list = second(given);
    for (; is_a(PAIR, list) && !is_stopped(); list = tail(list))
        if (is_equal(head(list), first(given), 0)) return list;
    return NIL;
}

static value do_assoc(value given) {
    value list = second(given);
    for (; is_a(PAIR, list) && !is_stopped(); list = tail(list))
        if (is_a(PAIR, head(list)) && is_equal(head(head(list)), first(given), 0)) return head(list);
    return NIL;
}

static value do_not(value given) {
    return truth(first(given) == NIL);
}

static value do_is_pair(value given) {
    return truth(is_a(PAIR, first(given)));
}

static value do_is_number(value given) {
    return truth(is_number(first(given)));
}

static value do_is_symbol(value given) {
    return truth(is_a(SYMBOL, first(given)) || first(given) == NIL);
}

static value do_is_string(value given) {
    return truth(is_a(STRING, first(given)));
}

static value do_is_function(value given) {
    return truth(is_a(PROCEDURE, first(given)) || is_a(BUILT_IN, first(given)));
}

/* The cells that are free. */
static value do_room(value given) {
    (void)given;
    return number_of(collect());
}

#define MANY 99

struct function {
    const char *name;
    int16 least, most;
    value (*does)(value given);
};

static const struct function functions[] = {
    {"eval", 1, 1, do_eval},
    {"apply", 2, 2, do_apply},
    {"cons", 2, 2, do_cons},
    {"car", 1, 1, do_car},
    {"cdr", 1, 1, do_cdr},
    {"set-car!", 2, 2, do_set_car},
    {"set-cdr!", 2, 2, do_set_cdr},
    {"list", 0, MANY, do_list},
    {"length", 1, 1, do_length},
    {"reverse", 1, 1, do_reverse},
    {"append", 0, MANY, do_append},
    {"member", 2, 2, do_member},
    {"assoc", 2, 2, do_assoc},
    {"equal?", 2, 2, do_equal},
    {"eq?", 2, 2, do_eq},
    {"not", 1, 1, do_not},
    {"null?", 1, 1, do_not},
    {"pair?", 1, 1, do_is_pair},
    {"number?", 1, 1, do_is_number},
    {"symbol?", 1, 1, do_is_symbol},
    {"string?", 1, 1, do_is_string},
    {"function?", 1, 1, do_is_function},
    {"+", 0, MANY, do_plus},
    {"-", 1, MANY, do_minus},
    {"*", 0, MANY, do_times},
    {"/", 2, 2, do_divide},
    {"mod", 2, 2, do_mod},
    {"=", 1, MANY, do_same},
    {"<", 1, MANY, do_less},
    {">", 1, MANY, do_greater},
    {"<=", 1, MANY, do_at_most},
    {">=", 1, MANY, do_at_least},
    {"random", 1, 1, do_random},
    {"string-append", 0, MANY, do_string_append},
    {"substring", 3, 3, do_substring},
    {"number->string", 1, 1, do_number_to_string},
    {"string->number", 1, 1, do_string_to_number},
    {"symbol->string", 1, 1, do_symbol_to_string},
    {"string->symbol", 1, 1, do_string_to_symbol},
    {"display", 0, MANY, do_display},
    {"print", 1, 1, do_print},
    {"newline", 0, 0, do_newline},
    {"read", 0, 0, do_read},
    {"key", 0, 0, do_key},
    {"emit", 1, 1, do_emit},
    {"words", 0, 0, do_words},
    {"room", 0, 0, do_room},
    {"save", 1, 1, do_save},
    {"load", 1, 1, do_load},
    {"files", 0, 0, do_files},
    {"type", 1, 1, do_type},
    {"bye", 0, 0, do_bye}};

const int16 function_count = (int16)(sizeof functions / sizeof *functions);

const char *function_name(int16 number) {
    return functions[number].name;
}

value function_call(int16 number, int16 count, value given) {
    const struct function *function = &functions[number];
    if (count < function->least) fault("too few arguments");
    if (count > function->most) fault("too many arguments");
    return wrong ? NIL : function->does(given);
}
