/* The prompt. What is read comes from the keyboard, or from a text file that (load) has opened, up to its end. */
#include "conversation.h"

#include "evaluator.h"
#include "pack.h"
#include "printer.h"
#include "reader.h"
#include "talk.h"
#include "text.h"

#define LINE 240

static char line[LINE + 1];
static const char *at = line;
static int16 is_line_open;

int16 is_stopped(void) {
    if (interrupted()) fault("stopped by Ctrl-C");
    return wrong != 0;
}

/* The next character of the keyboard's line. A new one has a prompt, with a point for each parenthesis that is open. */
static int16 typed_character(void) {
    int16 open = reader_open;
    if (is_line_open) {
        if (*at) return *at++;
        is_line_open = 0;
        return '\n';
    }
    if (open) put(' ');
    else put('>');
    while (open--) put('.');
    put(' ');
    at = line;
    if (read_line(line, LINE + 1) < 0) {
        fault("the line is dropped");
        return -1;
    }
    is_line_open = 1;
    return typed_character();
}

static void drop_line(void) {
    is_line_open = 0;
    reader_begin();
}

static void end_line(void) {
    put('\n');
    line_is_begun = 0;
}

/* One expression of the keyboard, and its value. */
static void answer(void) {
    value v;
    if (!read_from(typed_character, &v) || wrong) return;
    v = evaluate(v);
    if (line_is_begun) end_line();
    if (wrong || text_is_open() || image_is_open()) return;
    print(v);
    end_line();
}

/* All expressions of the file that is open. */
static void take_text(void) {
    value v;
    reader_begin();
    while (!wrong && read_from(text_character, &v))
        if (!wrong) evaluate(v);
    text_end();
    drop_line();
    if (!wrong) text("loaded\n");
}

static void take_image(void) {
    image_take();
    if (!wrong) text("loaded\n");
}

void converse(void) {
    for (;;) {
        depth = 0;
        answer();
        if (text_is_open() && !wrong) take_text();
        if (image_is_open() && !wrong) take_image();
        if (!wrong) continue;
        text_end();
        drop_line();
        tell_fault();
    }
}

value do_display(value given) {
    for (; given != NIL; given = tail(given)) display(head(given));
    return NIL;
}

value do_print(value given) {
    print(head(given));
    end_line();
    return head(given);
}

value do_newline(value given) {
    (void)given;
    end_line();
    return NIL;
}

/* An expression from the keyboard, which is not evaluated. */
value do_read(value given) {
    value v = NIL;
    (void)given;
    drop_line();
    read_from(typed_character, &v);
    drop_line();
    return v;
}

/* The code of the next key, without an echo. */
value do_key(value given) {
    int16 typed = next_key();
    (void)given;
    if (typed == CONTROL_C) fault("stopped by Ctrl-C");
    return number_of(typed);
}

/* Types the character of a code, as 27 for escape. */
value do_emit(value given) {
    value v = head(given);
    if (!(v & 1)) fault_about(v, "isn't the code of a character");
    else put((char)(v >> 1));
    return v;
}

/* The symbols that have a value, as a list. */
value do_words(value given) {
    value list = NIL, names;
    int16 number;
    (void)given;
    push(NIL);
    for (number = 0; number < SYMBOL_LISTS; number++)
        for (names = symbols[number]; names != NIL; names = tail(names))
            if (tail(head(names)) != UNBOUND) stack[depth - 1] = list = cons(head(names), list);
    pop();
    return list;
}
