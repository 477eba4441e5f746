/* The evaluator is a loop over one stack of values: what still has to be done with a value lies there as a frame, a few
 * values with the number of the step that takes them up on top. So a function that calls itself last needs no room, the
 * collector sees everything, and Ctrl-C finds it anywhere. */
#include "evaluator.h"

#include "functions.h"
#include "printer.h"
#include "text.h"

/* The steps that take up a frame; below each number is what the frame holds. */
enum step {
    END,      /* nothing: the evaluation is over */
    ARGUMENT, /* call, the arguments that are left, scope, the values so far */
    BRANCH,   /* what follows the test of an if, scope */
    SEQUENCE, /* the expressions that are left, scope */
    DEFINE,   /* symbol, scope */
    ASSIGN,   /* symbol, scope */
    ALL,      /* the expressions of an and that are left, scope */
    ANY,      /* the expressions of an or that are left, scope */
    CLAUSE,   /* the clauses of a cond from the tested one on, scope */
    TEST,     /* what follows the word while, scope */
    AGAIN,    /* the same, scope */
};

/* Whether the step is to evaluate `expression` in `scope`, or to hand `result` to a frame. */
static int16 has_result;
/* How much of the stack is frames; what lies above is a step's own. */
static int16 frames;
static value true_symbol, else_symbol;

static void evaluates(value what, value where) {
    expression = what;
    scope = where;
    has_result = 0;
}

static void results(value v) {
    result = v;
    has_result = 1;
}

static void push_step(enum step step) {
    push(number_of(step));
}

/* What is pushed before the evaluation of a part: a rest of the form, and the scope. */
static void waits(enum step step, value rest, value where) {
    push(rest);
    push(where);
    push_step(step);
}

/* A scope is a list of pairs of a symbol and its value, in front of the scope around it. */
static value found_in(value name, value where) {
    value pairs;
    for (; where != NIL; where = tail(where))
        for (pairs = head(where); pairs != NIL; pairs = tail(pairs))
            if (head(head(pairs)) == name) return head(pairs);
    return NIL;
}

static value value_of(value name, value where) {
    value pair = found_in(name, where);
    value v = pair == NIL ? tail(name) : tail(pair);
    if (v == UNBOUND) fault_about(name, "has no value");
    return v;
}

static void bind(value name, value v, value where) {
    value pair;
    push(where);
    pair = cons(name, v);
    set_head(where, cons(pair, head(where)));
    pop();
}

static void define(value name, value v, value where) {
    value pair;
    if (where == NIL) {
        set_tail(name, v);
        return;
    }
    for (pair = head(where); pair != NIL; pair = tail(pair))
        if (head(head(pair)) == name) {
            set_tail(head(pair), v);
            return;
        }
    bind(name, v, where);
}

static void assign(value name, value v, value where) {
    value pair = found_in(name, where);
    if (pair != NIL) set_tail(pair, v);
    else if (tail(name) == UNBOUND) fault_about(name, "has no value: define comes before set!");
    else set_tail(name, v);
}

/* The expressions of a body, one after another; the last one is evaluated in place of the whole. */
static void sequence(value body, value where) {
    if (body == NIL) {
        results(NIL);
        return;
    }
    if (tail(body) != NIL) waits(SEQUENCE, tail(body), where);
    evaluates(head(body), where);
}

/* Binds the parameters of a procedure, a list that may end by a symbol for all others, and goes on to its body. */
static void enter(value procedure, value given) {
    value wanted = head(tail(procedure));
    value inner = cons(NIL, head(procedure));
    push(inner);
    for (; is_a(PAIR, wanted); wanted = tail(wanted), given = tail(given)) {
        if (given == NIL) fault_about(head(wanted), "gets no value: too few arguments");
        bind(head(wanted), head(given), inner);
    }
    if (wanted != NIL) bind(wanted, given, inner);
    else if (given != NIL) fault_about(head(given), "is one argument too many");
    pop();
    sequence(tail(tail(procedure)), inner);
}

static int16 length_of_list(value list) {
    int16 length = 0;
    for (; is_a(PAIR, list); list = tail(list)) length++;
    return length;
}

/* Calls the function at the head of the list in `result`, where the collector finds it, with the values behind it. */
static void apply(void) {
    value function = head(result), given = tail(result);
    if (is_a(PROCEDURE, function)) {
        enter(function, given);
        return;
    }
    if (!is_a(BUILT_IN, function)) {
        fault_about(function, "isn't a function");
        return;
    }
    given = function_call(head(function) >> 1, length_of_list(given), given);
    if (wrong) return;
    switch (head(function) >> 1) {
    case EVAL_FUNCTION: evaluates(given, NIL); break;
    case APPLY_FUNCTION:
        result = given;
        apply();
        break;
    default: results(given); break;
    }
}

/* Evaluates the next argument of a call, or calls if there is none. DONE has the function and the values, the last first. */
static void next_argument(value what, value rest, value where, value done) {
    if (rest == NIL) {
        call = what;
        result = reversed(done);
        apply();
        return;
    }
    push(what);
    push(tail(rest));
    push(where);
    push(done);
    push_step(ARGUMENT);
    evaluates(head(rest), where);
}

static value argument(int16 at) {
    value v = tail(expression);
    while (at--) v = tail(v);
    return head(v);
}

/* The special forms: `expression` is the whole form. */
static void form_quote(void) {
    results(argument(0));
}

static void form_if(void) {
    waits(BRANCH, tail(tail(expression)), scope);
    evaluates(argument(0), scope);
}

static void form_lambda(void) {
    results(cell(PROCEDURE, scope, tail(expression)));
}

/* (define (f . parameters) . body) is a lambda's definition too. */
static void form_define(void) {
    value name = argument(0), made;
    if (is_a(PAIR, name)) {
        made = cons(tail(name), tail(tail(expression)));
        made = cell(PROCEDURE, scope, made);
        name = head(name);
    } else {
        waits(DEFINE, name, scope);
        evaluates(argument(1), scope);
        if (!is_a(SYMBOL, name)) fault_about(name, "can't be defined: it isn't a symbol");
        return;
    }
    if (!is_a(SYMBOL, name)) {
        fault_about(name, "can't be defined: it isn't a symbol");
        return;
    }
    define(name, made, scope);
    results(name);
}

static void form_set(void) {
    value name = argument(0);
    if (!is_a(SYMBOL, name)) {
        fault_about(name, "can't be set: it isn't a symbol");
        return;
    }
    waits(ASSIGN, name, scope);
    evaluates(argument(1), scope);
}

static void form_begin(void) {
    sequence(tail(expression), scope);
}

static void all_of(value rest, value where) {
    if (tail(rest) != NIL) waits(ALL, tail(rest), where);
    evaluates(head(rest), where);
}

static void form_and(void) {
    if (tail(expression) == NIL) results(true_symbol);
    else all_of(tail(expression), scope);
}

static void any_of(value rest, value where) {
    if (tail(rest) != NIL) waits(ANY, tail(rest), where);
    evaluates(head(rest), where);
}

static void form_or(void) {
    if (tail(expression) == NIL) results(NIL);
    else any_of(tail(expression), scope);
}

static void clauses(value rest, value where) {
    if (rest == NIL) {
        results(NIL);
        return;
    }
    if (!is_a(PAIR, head(rest))) {
        fault_about(head(rest), "isn't a clause: cond wants (test value)");
        return;
    }
    if (head(head(rest)) == else_symbol) {
        sequence(tail(head(rest)), where);
        return;
    }
    waits(CLAUSE, rest, where);
    evaluates(head(head(rest)), where);
}

static void form_cond(void) {
    clauses(tail(expression), scope);
}

static void form_while(void) {
    waits(TEST, tail(expression), scope);
    evaluates(argument(0), scope);
}

/* The names, or the values, of the bindings of a let, as a list. */
static value column(value bindings, int16 is_value) {
    value list = NIL;
    push(NIL);
    for (; is_a(PAIR, bindings); bindings = tail(bindings)) {
        value binding = head(bindings);
        if (!is_a(PAIR, binding) || !is_a(SYMBOL, head(binding))) fault_about(binding, "isn't a binding: let wants (name value)");
        list = cons(is_value ? head(tail(binding)) : head(binding), list);
        stack[depth - 1] = list;
    }
    list = reversed(list);
    pop();
    return list;
}

/* (let ((name value) ..) . body) is the call of a lambda; (let f ((name value) ..) . body) defines f around it. */
static void form_let(void) {
    value name = is_a(SYMBOL, argument(0)) ? argument(0) : NIL;
    value rest = name == NIL ? tail(expression) : tail(tail(expression)), where = scope, made, values;
    if (name != NIL) scope = where = cons(NIL, scope);
    made = column(head(rest), 0);
    made = cons(made, tail(rest));
    made = cell(PROCEDURE, where, made);
    push(made);
    if (name != NIL) define(name, made, where);
    values = column(head(rest), 1);
    push(values);
    made = cons(made, NIL);
    pop();
    pop();
    next_argument(expression, values, where, made);
}

struct form {
    const char *name;
    int16 least;
    void (*does)(void);
};

static const struct form forms[] = {
    {"quote", 1, form_quote}, {"if", 2, form_if},   {"lambda", 2, form_lambda}, {"define", 2, form_define},
    {"set!", 2, form_set},    {"let", 2, form_let}, {"begin", 0, form_begin},   {"and", 0, form_and},
    {"or", 0, form_or},       {"cond", 1, form_cond}, {"while", 1, form_while}};
#define FORMS ((int16)(sizeof forms / sizeof *forms))

const char *name_of(value v) {
    return is_a(SPECIAL, v) ? forms[head(v) >> 1].name : function_name(head(v) >> 1);
}

void evaluator_begin(void) {
    int16 at;
    for (at = 0; at < FORMS; at++) set_tail(symbol_named(forms[at].name), cell(SPECIAL, number_of(at), NIL));
    for (at = 0; at < function_count; at++) set_tail(symbol_named(function_name(at)), cell(BUILT_IN, number_of(at), NIL));
    evaluator_symbols();
    set_tail(true_symbol, true_symbol);
}

void evaluator_symbols(void) {
    true_symbol = symbol("t", 1);
    else_symbol = symbol("else", 4);
}

value truth(int16 is_true) {
    return is_true ? true_symbol : NIL;
}


/* A symbol, a form, a call, or what stands for itself. */
static void evaluate_one(void) {
    value what = expression, first;
    if (is_a(SYMBOL, what)) {
        results(value_of(what, scope));
        return;
    }
    if (!is_a(PAIR, what)) {
        results(what);
        return;
    }
    first = head(what);
    if (!is_a(SYMBOL, first)) {
        push(what);
        push(tail(what));
        push(scope);
        push(NIL);
        push_step(ARGUMENT);
        evaluates(first, scope);
        return;
    }
    call = what;
    first = value_of(first, scope);
    if (wrong) return;
    if (!is_a(SPECIAL, first)) {
        next_argument(what, tail(what), scope, cons(first, NIL));
    } else if (length_of_list(tail(what)) < forms[head(first) >> 1].least) {
        fault_about(head(what), "wants more behind it");
    } else {
        forms[head(first) >> 1].does();
    }
}

/* Hands `result` to the frame on the stack: whether the evaluation is over. */
static int16 take_up(void) {
    value what, where, rest, done;
    enum step step = (enum step)(pop() >> 1);
    if (step == END) return 1;
    if (step == ARGUMENT) {
        done = cons(result, stack[depth - 1]);
        pop();
        where = pop();
        rest = pop();
        what = pop();
        frames = depth;
        next_argument(what, rest, where, done);
        return 0;
    }
    where = pop();
    rest = pop();
    frames = depth;
    switch (step) {
    case BRANCH:
        if (result == NIL) rest = tail(rest);
        evaluates(head(rest), where);
        break;
    case SEQUENCE: sequence(rest, where); break;
    case DEFINE:
        define(rest, result, where);
        results(rest);
        break;
    case ASSIGN: assign(rest, result, where); break;
    case ALL:
        if (result != NIL) all_of(rest, where);
        break;
    case ANY:
        if (result == NIL) any_of(rest, where);
        break;
    case CLAUSE:
        if (result == NIL) clauses(tail(rest), where);
        else if (tail(head(rest)) != NIL) sequence(tail(head(rest)), where);
        break;
    case TEST:
        if (result == NIL) break;
        waits(AGAIN, rest, where);
        sequence(tail(rest), where);
        break;
    case AGAIN:
        waits(TEST, rest, where);
        evaluates(head(rest), where);
        break;
    default: break;
    }
    return 0;
}

static void tell_call(value what) {
    text("  in ");
    print_short(what);
    put('\n');
}

/* How many places of the stack a frame has, whose step is on top. */
static int16 frame_size(value step) {
    if (step == number_of(END)) return 1;
    return step == number_of(ARGUMENT) ? 5 : 3;
}

/* Tells the calls that wait for one another from the innermost one on, at most four, by the frames on the stack. */
static void tell_calls(void) {
    int16 at, left = 3;
    if (call != NIL) tell_call(call);
    for (at = frames; at > 0 && left; at = (int16)(at - frame_size(stack[at - 1]))) {
        if (stack[at - 1] != number_of(ARGUMENT) || stack[at - 5] == call) continue;
        tell_call(stack[at - 5]);
        left--;
    }
}

int16 tell_fault(void) {
    const char *what = wrong;
    if (!what) return 0;
    wrong = 0;
    text("? ");
    if (wrong_has_value) {
        print_short(wrong_value);
        put(' ');
    }
    text(what);
    put('\n');
    tell_calls();
    line_is_begun = 0;
    expression = scope = result = call = NIL;
    depth = 0;
    return 1;
}

value evaluate(value what) {
    call = NIL;
    push_step(END);
    evaluates(what, NIL);
    for (;;) {
        if (is_stopped() || wrong) return NIL;
        frames = depth;
        if (!has_result) {
            evaluate_one();
        } else if (take_up()) {
            call = NIL;
            return result;
        }
    }
}
