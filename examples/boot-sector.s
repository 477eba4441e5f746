# The boot sector that pack-of puts in front of a program: it reads the program from sector 1 on to its address, and goes
# to its entry, with the stack below the program. If the disk fails it halts. For GNU's assembler, pdp11-aout; linked for
# 0. pack-of fills in the last three words.
        rkcs = 0177404
        rkwc = 0177406
        rkba = 0177410
        rkda = 0177412

        .globl  start
start:  mov     words, *$rkwc
        mov     place, *$rkba
        mov     $1, *$rkda
        mov     $5, *$rkcs              # read, GO
ready:  tstb    *$rkcs
        bpl     ready
        tst     *$rkcs
        bmi     fails
        mov     place, sp
        jmp     *entry
fails:  halt
        br      start
        . = start + 0772
words:  .word   0                       # minus how many words the program has
place:  .word   0                       # its address
entry:  .word   0                       # where it begins
