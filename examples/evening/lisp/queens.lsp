; The eight queens: (queens 6) gives one column for each row, so that no queen
; attacks another one. (show (queens 8)) draws the board.
(define (safe? column others)
  (let next ((l others) (far 1))
    (cond ((null? l) t)
          ((= column (car l)) nil)
          ((= far (abs (- column (car l)))) nil)
          (else (next (cdr l) (+ far 1))))))

(define (queens n)
  (define (place row others)
    (if (> row n)
        others
        (let next ((column 1))
          (cond ((> column n) nil)
                ((and (safe? column others) (place (+ row 1) (cons column others))))
                (else (next (+ column 1)))))))
  (place 1 nil))

(define (show board)
  (for-each
    (lambda (queen)
      (for-each (lambda (column) (display (if (= column queen) "Q " ". ")))
                (range 1 (length board)))
      (newline))
    board))

(display "(queens 6) gives columns, (show (queens 8)) draws a board.\n")
