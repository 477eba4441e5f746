# Lines for the Lisp, and what each types behind =>; \n is a new line. They are played one after another by
# soak/evening_games. What they type was worked out from LISP.md and from the rules of Scheme.

# Numbers
(+ 1 2) => 3
(+) => 0
(- 5) => -5
(- 10 1 2) => 7
(* 2 3 4) => 24
(/ 17 5) => 3
(/ -17 5) => -3
(mod 17 5) => 2
(mod -17 5) => 3
(mod 17 -5) => -3
(* 46340 46340) => 2147395600
(* 46341 46341) => ? the result is beyond 2147483647\n  in (* 46341 46341)
(+ 2147395600 88047) => 2147483647
(+ 2147395600 88048) => ? the result is beyond 2147483647\n  in (+ 2147395600 88048)
(- -2147395600 88047) => -2147483647
(/ 1 0) => ? division by 0\n  in (/ 1 0)
123456789 => 123456789
-16384 => -16384
(+ 16383 1) => 16384
(- -16384 1) => -16385
2147483647 => 2147483647
-2147483647 => -2147483647
2147483648 => ? a number is 2147483647 at most
(= 100000 100000) => t
(< 1 2 3) => t
(< 1 3 2) => nil
(>= 3 3 2) => t
(+ 1 'a) => ? a isn't a number\n  in (+ 1 'a)
(abs -7) => 7
(min 3 2) => 2
(max 3 2) => 3

# Lists
'(1 (2 3) "four") => (1 (2 3) "four")
'(1 . 2) => (1 . 2)
'(1 . (2 . (3 . nil))) => (1 2 3)
(cons 1 '(2)) => (1 2)
(car '(1 2)) => 1
(cdr '(1 2)) => (2)
(cdr '(1)) => nil
(car 3) => ? 3 isn't a list with something in it\n  in (car 3)
(cadr '(1 2 3)) => 2
(caddr '(1 2 3)) => 3
(list 1 (+ 1 1) "x") => (1 2 "x")
(length '(a b c)) => 3
(length "four") => 4
(append '(1) nil '(2 3) '(4)) => (1 2 3 4)
(append) => nil
(reverse '(1 2 3)) => (3 2 1)
(nth 2 '(a b c)) => c
(member 2 '(1 2 3)) => (2 3)
(member "b" '("a" "b")) => ("b")
(assoc 'b '((a 1) (b 2))) => (b 2)
(assoc 'c '((a 1))) => nil
(range 3 7) => (3 4 5 6 7)
(map (lambda (n) (* n n)) '(1 2 3)) => (1 4 9)
(filter (lambda (n) (> n 2)) '(1 2 3 4)) => (3 4)
(fold + 0 (range 1 100)) => 5050
(apply + '(1 2 3)) => 6
(eval (list '+ 1 2)) => 3

# Tests
(null? nil) => t
(pair? '(1)) => t
(pair? nil) => nil
(number? 70000) => t
(symbol? 'a) => t
(string? "a") => t
(function? car) => t
(equal? '(1 (2 "x")) '(1 (2 "x"))) => t
(eq? '(1) '(1)) => nil
(eq? 'a 'A) => t

# Strings
"a\"b\\c" => "a\"b\\c"
(string-append "ab" "" "cde") => "abcde"
(substring "hello" 1 3) => "el"
(substring "hello" 3 99) => "lo"
(number->string -45) => "-45"
(string->number "-17") => -17
(string->number "1x") => nil
(symbol->string 'abc) => "abc"
(string->symbol "abc") => abc
(display "a" 1 '(2 "b") "\n") => a1(2 "b")\nnil
(display "no end") => no end\nnil
(print '(1 "x")) => (1 "x")\n(1 "x")

# Forms
(if nil 1 2) => 2
(if nil 1) => nil
(if 0 1 2) => 1
(cond (nil 1) ((= 1 1) 2 3) (else 4)) => 3
(cond (nil 1)) => nil
(cond (7)) => 7
(and 1 2 3) => 3
(and 1 nil 3) => nil
(and) => t
(or nil 2 (car 3)) => 2
(or) => nil
(begin 1 2 3) => 3
(let ((a 1) (b 2)) (+ a b)) => 3
(let ((a 1)) (let ((a 2) (b a)) (list a b))) => (2 1)
(let next ((n 5) (done 1)) (if (= n 0) done (next (- n 1) (* done n)))) => 120
'x => x
''x => 'x
(quote (quote x)) => 'x

# Definitions and scopes
(define (fact n) (if (< n 2) 1 (* n (fact (- n 1))))) => fact
(fact 12) => 479001600
fact => (lambda (n) (if (< n 2) 1 (* n (fact (- n 1)))))
(define (counter n) (lambda () (set! n (+ n 1)))) => counter
(define tick (counter 10)) => tick
(define tock (counter 20)) => tock
(tick) => 11
(tick) => 12
(tock) => 21
(define (rest a . b) b) => rest
(rest 1 2 3) => (2 3)
(rest 1) => nil
(rest) => ? a gets no value: too few arguments\n  in (rest)
(fact 1 2) => ? 2 is one argument too many\n  in (fact 1 2)
((lambda all all) 1 2) => (1 2)
(define (outer x) (define (inner y) (+ x y)) (inner 10)) => outer
(outer 5) => 15
inner => ? inner has no value
(define x 1) => x
(define (sees-x) x) => sees-x
(let ((x 2)) (sees-x)) => 1
(set! nope 1) => ? nope has no value: define comes before set!\n  in (set! nope 1)
(define n 0) => n
(while (< n 5) (set! n (+ n 1))) => nil
n => 5
(define (even n) (if (= n 0) t (odd (- n 1)))) => even
(define (odd n) (if (= n 0) nil (even (- n 1)))) => odd
(even 10001) => nil

# Errors
(foo 1) => ? foo has no value\n  in (foo 1)
(1 2) => ? 1 isn't a function\n  in (1 2)
) => ? ) has no ( in front of it
(if) => ? if wants more behind it\n  in (if)
(car) => ? too few arguments\n  in (car)
(car 1 2) => ? too many arguments\n  in (car 1 2)
(define 3 4) => ? 3 can't be defined: it isn't a symbol\n  in (define 3 4)
(let ((3 4)) 1) => ? (3 4) isn't a binding: let wants (name value)\n  in (let ((3 4)) 1)
(cond 3) => ? 3 isn't a clause: cond wants (test value)\n  in (cond 3)
(save 3) => ? 3 isn't a file's name: write it as "MINE"\n  in (save 3)
(load "none") => ? There is no such file\n  in (load "none")
(load "LISP") => ? the file is a program\n  in (load "LISP")
(define (second l) (car (cdr l))) => second
(+ 1 (second '(7))) => ? nil isn't a list with something in it\n  in (car (cdr l))\n  in (+ 1 (second '(7)))

# Room and depth
(define (deep n) (if (= n 0) 0 (+ 1 (deep (- n 1))))) => deep
(deep 350) => 350
(define (list-of n) (let next ((n n) (l nil)) (if (= n 0) l (next (- n 1) (cons n l))))) => list-of
(length (list-of 2500)) => 2500
(let next ((n 300)) (if (= n 0) 'done (begin (list-of 10) (next (- n 1))))) => done
(define (nested n) (let next ((n n) (l nil)) (if (= n 0) l (next (- n 1) (list l))))) => nested
(length (nested 2000)) => 1
