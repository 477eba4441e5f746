# What boot-pack.p11 writes to sector 0 of a pack, and boot.p11 reads to 0 and starts: types a line, and halts once its
# last character is typed. For GNU's assembler, pdp11-aout; linked for 0.
        .globl  start
start:  mov     $text, r1
next:   movb    (r1)+, r2
        beq     done
ready:  tstb    *$0177564
        bpl     ready
        movb    r2, *$0177566
        br      next
done:   tstb    *$0177564
        bpl     done
        halt
text:   .asciz  "HELLO FROM THE PACK\r\n"
