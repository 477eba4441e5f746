# The monitor that monitor.p11 puts on a pack and boots: it prompts with a point, and takes lines of the terminal. E A shows
# the word at A, D A W makes it W, T shows how often the clock has ticked; all numbers are octal, and RUBOUT takes a key
# back. A line has room for 26 keys. For GNU's assembler, pdp11-aout; linked for 0, where the loader reads it to.
#
# Keys come by interrupts of the receiver, and what is typed goes out through a ring by those of the transmitter. Each
# handler looks first whether what asked for it still stands, since a request stays if its cause goes: here the
# transmitter's, while a full ring is emptied by hand.

        rcsr = 0177560; rbuf = 0177562; xcsr = 0177564; xbuf = 0177566; lks = 0177546; psw = 0177776
        line = 01000; edge = 01032; ring = 01034; stack = 02000

        .globl  start
start:  br      begin
        . = start + 4
        .word   absent, 0200            # a word that isn't there
head:   .word   0                       # the ring's next place to be filled, and the next to be sent
tail:   .word   0
ticks:  .word   0
next:   .word   line                    # where the next key of the line goes
hello:  .asciz  "MONITOR\r\n."
query:  .asciz  "?\r\n"
crlf:   .asciz  "\r\n"
dot:    .asciz  "."
back:   .asciz  "\b \b"
        . = start + 060
        .word   key, 0200, sent, 0200
        . = start + 0100
        .word   tick, 0300

begin:  mov     $stack, sp
        mov     $0200, *$psw            # no interrupt yet
        mov     $hello, r2
        jsr     pc, *$type
        mov     $0100, *$rcsr
        mov     $0100, *$lks
        clr     *$psw
main:   wait
        br      main

tick:   tstb    *$lks                   # has it ticked?
        bpl     idle
        mov     $0100, *$lks
        inc     *$ticks
idle:   rti

# The transmitter: the ring's next byte, or no more interrupts if there is none.
sent:   tstb    *$xcsr                  # is it ready?
        bpl     idle
        mov     *$tail, r5
        cmp     r5, *$head
        beq     off
        movb    ring(r5), *$xbuf
        inc     r5
        bic     $0177700, r5
        mov     r5, *$tail
        rti
off:    clr     *$xcsr
        rti

# The byte in R0 goes into the ring; if that is full, its oldest byte is typed first.
put:    mov     *$head, r5
        movb    r0, ring(r5)
        inc     r5
        bic     $0177700, r5
        cmp     r5, *$tail
        bne     room
full:   tstb    *$xcsr
        bpl     full
        mov     *$tail, r4
        movb    ring(r4), *$xbuf
        inc     r4
        bic     $0177700, r4
        mov     r4, *$tail
room:   mov     r5, *$head
        mov     $0100, *$xcsr
        rts     pc

# The text at R2, to a byte of zeros.
type:   movb    (r2)+, r0
        beq     typed
        jsr     pc, *$put
        br      type
typed:  rts     pc

# The octal number at R3, behind blanks, into R1.
number: clr     r1
blank:  cmpb    (r3), $040
        bne     digit
        inc     r3
        br      blank
digit:  movb    (r3), r0
        sub     $'0, r0
        cmp     r0, $7
        bhi     typed
        asl     r1
        asl     r1
        asl     r1
        add     r0, r1
        inc     r3
        br      digit

# R1 in six octal digits.
octal:  mov     $6, r2
        clr     r0
        br      bit
three:  clr     r0
        asl     r1
        rol     r0
        asl     r1
        rol     r0
bit:    asl     r1
        rol     r0
        add     $'0, r0
        jsr     pc, *$put
        sob     r2, three
        rts     pc

# The receiver has a key: a return ends the line, RUBOUT takes a key back, and any other is kept and echoed while there is
# room.
key:    tstb    *$rcsr                  # has it one?
        bpl     deaf
        movb    *$rbuf, r0
        bic     $0177600, r0
        mov     *$next, r3
        cmp     r0, $015
        beq     done
        cmp     r0, $0177
        beq     rubout
        cmp     r3, $edge
        bhis    deaf
        movb    r0, (r3)+
        mov     r3, *$next
        jsr     pc, *$put
deaf:   rti
rubout: cmp     r3, $line
        beq     deaf
        dec     *$next
        mov     $back, r2
        jsr     pc, *$type
        rti

# A line is done. Its first letter, small or not, says what is wanted.
done:   clrb    (r3)
        mov     $line, r3
        mov     r3, *$next
        mov     $crlf, r2
        jsr     pc, *$type
        movb    (r3)+, r0
        beq     prompt
        bic     $040, r0
        cmpb    r0, $'E
        beq     show
        cmpb    r0, $'D
        beq     change
        cmpb    r0, $'T
        beq     count
what:   mov     $query, r2
        jsr     pc, *$type
prompt: mov     $dot, r2
        jsr     pc, *$type
        rti
show:   jsr     pc, *$number
        bic     $1, r1
        mov     r1, -(sp)
        jsr     pc, *$octal
        mov     $040, r0
        jsr     pc, *$put
        mov     *(sp)+, r1
value:  jsr     pc, *$octal
        mov     $crlf, r2
        jsr     pc, *$type
        br      prompt
change: jsr     pc, *$number
        bic     $1, r1
        mov     r1, -(sp)
        jsr     pc, *$number
        mov     r1, *(sp)+
        br      prompt
count:  mov     *$ticks, r1
        br      value

# There is no such word: what the line had on the stack goes.
absent: mov     $stack - 4, sp
        br      what
