# Types a line on the console, waits until its last character is typed, and halts. For GNU's assembler, pdp11-aout.
        .globl  start
start:  mov     $text, r1
next:   movb    (r1)+, r0
        beq     done
        jsr     pc, type
        br      next
done:   tstb    *$0177564
        bpl     done
        halt
type:   tstb    *$0177564
        bpl     type
        movb    r0, *$0177566
        rts     pc
text:   .asciz  "ASSEMBLED\r\n"
