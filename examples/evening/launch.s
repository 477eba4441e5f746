# launch(address of its first sector for RKDA, minus how many words): a program of the pack takes the menu's place. It is
# read to 1000, and all behind it, up to 160000, is cleared. What does it lies at 400, below the program.
        rkcs = 0177404; rkwc = 0177406; rkba = 0177410; rkda = 0177412
        place = 0400; program = 01000; top = 0160000

        .globl  _launch
_launch:
        mov     2(sp), r4
        mov     4(sp), r5
        mov     $moved, r0
        mov     $place, r1
1:      mov     (r0)+, (r1)+
        cmp     r0, $behind
        blo     1b
        jmp     *$place

moved:  mov     r5, *$rkwc
        mov     $program, *$rkba
        mov     r4, *$rkda
        mov     $5, *$rkcs
1:      tstb    *$rkcs
        bpl     1b
        tst     *$rkcs
        bmi     3f
        mov     *$rkba, r0
2:      clr     (r0)+
        cmp     r0, $top
        blo     2b
        jmp     *$program
3:      halt                            # the pack can't be read
        br      moved
behind:
