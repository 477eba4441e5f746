# How a program of the pack begins, and how it ends back to the menu: the pack is booted again. A character to the console.
# For GNU's assembler, pdp11-aout; in front of the program in place of examples/c11/start.s.
        rkcs = 0177404; rkwc = 0177406; rkba = 0177410; rkda = 0177412
        lks = 0177546; rcsr = 0177560; xcsr = 0177564; xbuf = 0177566
        psw = 0177776

        .globl  start, _emit, _leave, _wait_key, ___main
start:  mov     $0160000, sp
        clr     *$psw
        jsr     pc, _main
_leave: mov     $0340, *$psw            # no interrupt any more; RESET would lose a key
        clr     *$rcsr
        clr     *$lks
1:      tstb    *$xcsr
        bpl     1b
        clr     *$xcsr
        mov     $-256, *$rkwc           # the boot sector to 0
        clr     *$rkba
        clr     *$rkda
        mov     $5, *$rkcs
1:      tstb    *$rkcs
        bpl     1b
        tst     *$rkcs
        bmi     2f
        jmp     *$0
2:      halt                            # the pack can't be read
        br      _leave

___main:
        rts     pc

# wait_key(): waits until a key is there, by the receiver's interrupt, wherever between these instructions it comes.
_wait_key:
        tstb    *$rcsr
        bmi     2f
        mov     $arrived, *$060
        mov     $0340, *$062
        mov     $0100, *$rcsr
1:      wait
        br      1b
arrived:
        mov     $2f, (sp)
        rti
2:      clr     *$rcsr
        rts     pc

# emit(c)
_emit:  tstb    *$xcsr
        bpl     _emit
        movb    2(sp), *$xbuf
        rts     pc
