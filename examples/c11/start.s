# What a compiled program stands on: how it begins and ends, and a character to the console. For GNU's assembler,
# pdp11-aout.
        xcsr = 0177564; xbuf = 0177566

        .globl  start, _emit, _leave, ___main
start:  mov     $0160000, sp
        jsr     pc, _main
_leave: tstb    *$xcsr
        bpl     _leave
        halt
        br      .

___main:
        rts     pc

# emit(c)
_emit:  tstb    *$xcsr
        bpl     _emit
        movb    2(sp), *$xbuf
        rts     pc
