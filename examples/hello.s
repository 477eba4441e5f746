# The program of hello.tape: types a line, and halts once its last character is typed. For GNU's assembler, pdp11-aout;
# linked for 1000 octal.
        .globl  start
start:  mov     $text, r1
next:   movb    (r1)+, r2
        beq     done
ready:  tstb    *$0177564
        bpl     ready
        movb    r2, *$0177566
        br      next
done:   tstb    *$0177564
        bpl     done
        halt
text:   .asciz  "HELLO FROM THE TAPE\r\n"
