# How a program in C begins and ends in the small system; its calls; and the routines of lib.mac, as functions. For GNU's
# assembler. The names in capitals are those of sys.mac and lib.mac.
        .globl  start, ___main, _exit

start:  br      .+4
        .word   1                       # how many pages it wants: cc11 puts in another number
        mov     $words, r2              # main(count, words): behind a first one, which is empty, the words of the command
        mov     $empty, (r2)+
        mov     $1, r3
1:      jsr     pc, WORD
        bcs     2f
        mov     r1, (r2)+
        inc     r3
        br      1b
2:      mov     $words, -(sp)
        mov     r3, -(sp)
        jsr     pc, _main
        mov     r0, -(sp)
        jsr     pc, _exit
_exit:  bis     2(sp), FAILED           # exit(status)
        jmp     DONE
___main:
        rts     pc

# A call, with what it takes in R0, R1 and R2. It answers R0, or if it failed minus the error.
        .macro  function name, first=r0, second=r1
        .globl  _\name
_\name: mov     r2, -(sp)
        mov     4(sp), \first
        mov     6(sp), \second
        mov     010(sp), r2
        .endm
        .macro  calls name, number
        function \name
        emt     \number
        jmp     called
        .endm
        calls   open, OPEN
        calls   create, CREATE
        calls   read, READ
        calls   write, WRITE
        calls   close, CLOSE
called: mov     (sp)+, r2
        bcc     1f
        neg     r0
1:      rts     pc

# A routine, with what it takes in R0 and R1. It answers R0, or -1 if C is set.
        .macro  routine name, address, first=r0, second=r1
        function \name, \first, \second
        clc
        jsr     pc, \address
        jmp     ended
        .endm
        routine putc, PUTC
        routine puts, PUTS
        routine putline, PUTLINE
        routine newline, NEWLINE
        routine number, NUMBER
        routine flush, FLUSH
        routine misuse, MISUSE
        routine warnof, WARNOF
        routine getc, GETC
        routine getline, GETLINE, r1, r0
        routine input, INPUT, r1, r0
        routine endin, ENDIN
ended:  mov     (sp)+, r2
        bcc     1f
        mov     $-1, r0
1:      rts     pc

empty:  .word   0
        .bss
words:  .=.+0110
