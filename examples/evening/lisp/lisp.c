/* A Lisp with a prompt. LISP.md says what it has. */
#include "conversation.h"
#include "evaluator.h"
#include "prelude.h"
#include "talk.h"

int main(void) {
    heap_begin();
    evaluator_begin();
    prelude();
    text("LISP with ");
    number(collect());
    text(" free cells. Try these:\n"
         "  (+ 1 2)                      a function, and what it is given\n"
         "  (define (square n) (* n n))  a function of your own\n"
         "  (map square '(1 2 3))        a list, quoted\n"
         "  (save \"mine\")                keeps all that you defined; (load \"mine\")\n"
         "  (words)  (files)  (help)     all names; the files on the pack; the manual\n"
         "DEL rubs out, Ctrl-C stops, (bye) ends.\n");
    random_begin(keys_mixed());
    converse();
    return 0;
}
