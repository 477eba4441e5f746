# The words of mapping.p11 from 1000, from 2000 and from 20000 octal on: a kernel that gives a program a page, and is told
# where and why the program leaves it. For GNU's assembler, pdp11-aout; linked for 1000 octal. The vectors are set by
# the script.
        .globl  start
start:  mov     $077406, *$0172300      # the kernel's page 0 stays where it is
        clr     *$0172340
        mov     $077406, *$0172316      # and its page 7 is the I/O page
        mov     $07600, *$0172356
        mov     $01406, *$0177600       # the user's page 0: four blocks from 20000 on
        mov     $0200, *$0177640
        inc     *$0177572               # mapping on
        mov     $0140000, -(sp)         # to the user's address 0, in user mode
        clr     -(sp)
        rti
        . = start + 01000
abort:  mov     *$0177572, r1           # why, and which page
        mov     *$0177576, r2           # which instruction
        halt
        bic     $0160000, *$0177572     # the cause is dealt with
        mov     r2, (sp)
        rti                             # does the instruction again
        . = start + 01100
trap:   halt
        . = start + 017000
user:   mov     $0123, *$0100
        mov     *$0100, r0
        mov     $0321, *$060000
        trap    0
