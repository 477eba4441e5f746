/* Functions that are simpler in Lisp. */
#include "prelude.h"

#include "evaluator.h"
#include "reader.h"

static const char source[] =
    "(define (cadr l) (car (cdr l)))"
    "(define (cddr l) (cdr (cdr l)))"
    "(define (caddr l) (car (cddr l)))"
    "(define (nth n l) (if (= n 0) (car l) (nth (- n 1) (cdr l))))"
    "(define (map f l) (let next ((l l) (done nil)) (if l (next (cdr l) (cons (f (car l)) done)) (reverse done))))"
    "(define (for-each f l) (while l (f (car l)) (set! l (cdr l))))"
    "(define (filter f l) (let next ((l l) (done nil))"
    " (if l (next (cdr l) (if (f (car l)) (cons (car l) done) done)) (reverse done))))"
    "(define (fold f start l) (if l (fold f (f start (car l)) (cdr l)) start))"
    "(define (range a b) (let next ((b b) (done nil)) (if (< b a) done (next (- b 1) (cons b done)))))"
    "(define (abs n) (if (< n 0) (- n) n))"
    "(define (min a b) (if (< a b) a b))"
    "(define (max a b) (if (> a b) a b))"
    "(define (help) (type \"LISP.TXT\"))";

static const char *at;

static int16 next_character_of_source(void) {
    return *at ? *at++ : -1;
}

void prelude(void) {
    value v;
    at = source;
    reader_begin();
    while (read_from(next_character_of_source, &v)) evaluate(v);
    reader_begin();
}
