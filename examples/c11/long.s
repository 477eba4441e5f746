# The arithmetic that the compiler calls for: longs, and words without a sign. For GNU's assembler, pdp11-aout. A long has
# its high word first, in memory and in R0 and R1.
        .globl  ___mulsi3, ___udivsi3, ___umodsi3, ___divsi3, ___modsi3, ___udivhi3, ___umodhi3, ___cmpsi2, ___ucmpsi2

# Whether a is less than b (0), the same (1) or greater (2), with signs and without.
___cmpsi2:
        cmp     2(sp), 6(sp)
        blt     1f
        bgt     2f
        br      3f
___ucmpsi2:
        cmp     2(sp), 6(sp)
        blo     1f
        bhi     2f
3:      cmp     4(sp), 010(sp)
        blo     1f
        bhi     2f
        mov     $1, r0
        rts     pc
1:      clr     r0
        rts     pc
2:      mov     $2, r0
        rts     pc

# a * b, from the products of their halves. MUL takes its factors with a sign.
___mulsi3:
        mov     4(sp), r0
        mul     010(sp), r0
        tst     4(sp)
        bpl     1f
        add     010(sp), r0
1:      tst     010(sp)
        bpl     2f
        add     4(sp), r0
2:      mov     r1, -(sp)
        mov     r0, -(sp)
        mov     6(sp), r1
        mul     014(sp), r1
        add     r1, (sp)
        mov     010(sp), r1
        mul     012(sp), r1
        add     r1, (sp)
        mov     (sp)+, r0
        mov     (sp)+, r1
        rts     pc

# Unsigned R0 and R1 by R2 and R3: the quotient is in R0 and R1, the remainder in R4 and R5.
divide: clr     r4
        clr     r5
        mov     $32, -(sp)
1:      asl     r1
        rol     r0
        rol     r5
        rol     r4
        bcs     2f
        cmp     r4, r2
        blo     3f
        bhi     2f
        cmp     r5, r3
        blo     3f
2:      sub     r3, r5
        sbc     r4
        sub     r2, r4
        inc     r1
3:      dec     (sp)
        bne     1b
        tst     (sp)+
        rts     pc

# How the functions of two longs begin: a is in R0 and R1, b in R2 and R3; and how they end, with what R2 to R5 held.
        .macro  enter
        mov     r2, -(sp)
        mov     r3, -(sp)
        mov     r4, -(sp)
        mov     r5, -(sp)
        mov     012(sp), r0
        mov     014(sp), r1
        mov     016(sp), r2
        mov     020(sp), r3
        .endm
        .macro  leave
        mov     (sp)+, r5
        mov     (sp)+, r4
        mov     (sp)+, r3
        mov     (sp)+, r2
        rts     pc
        .endm
# A long in two registers is negated.
        .macro  negate high, low
        neg     \high
        neg     \low
        sbc     \high
        .endm

___udivsi3:
        enter
        jsr     pc, divide
        leave
___umodsi3:
        enter
        jsr     pc, divide
        mov     r4, r0
        mov     r5, r1
        leave
___divsi3:
        enter
        mov     r0, r4
        xor     r2, r4
        mov     r4, -(sp)               # the quotient's sign
        jsr     pc, sizes
        tst     (sp)+
        bpl     1f
        negate  r0, r1
1:      leave
___modsi3:
        enter
        mov     r0, -(sp)               # the remainder's sign
        jsr     pc, sizes
        mov     r4, r0
        mov     r5, r1
        tst     (sp)+
        bpl     1f
        negate  r0, r1
1:      leave
sizes:  tst     r0
        bpl     1f
        negate  r0, r1
1:      tst     r2
        bpl     divide
        negate  r2, r3
        br      divide

# The same of two words without a sign.
        .macro  words
        mov     r2, -(sp)
        mov     r3, -(sp)
        mov     r4, -(sp)
        mov     r5, -(sp)
        clr     r0
        mov     012(sp), r1
        clr     r2
        mov     014(sp), r3
        jsr     pc, divide
        .endm
___udivhi3:
        words
        mov     r1, r0
        leave
___umodhi3:
        words
        mov     r5, r0
        leave
