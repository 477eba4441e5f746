# The words of echo.p11 from 1000 and from 2000 octal on: what is typed to the machine is typed back. For GNU's
# assembler, pdp11-aout; linked for 1000 octal. Vector 60 is set by the script.
        .globl  start
start:  mov     $0100, *$0177560        # the receiver may interrupt
idle:   wait
        br      idle
        . = start + 01000
key:    movb    *$0177562, r0
ready:  tstb    *$0177564
        bpl     ready
        movb    r0, *$0177566
        rti
