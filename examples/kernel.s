# A small kernel: three programs in user mode, each in pages of its own, which the line clock preempts. P finds primes, D
# keeps a note on the disk, and M misbehaves: it is ended with a message each time, and begins again with its next deed,
# while P and D go on. For GNU's assembler, pdp11-aout; linked for 1000 octal, where examples/pack-of's boot sector puts
# it. kernel.p11 boots it; the operator lets the clock tick by `clock 1000`.
#
# Calls, by EMT with the call's number in its low byte; R0 and R1 are what it takes and gives:
#   0  the program is done
#   1  types the text at R0, which a byte of zeros ends
#   2  reads the disk's block R1 to R0; R0 is 0 then, or what RKER says
#   3  writes the disk's block R1 from R0, with the same answer
#   4  reads a line of the console to R0, and gives its length in R0
#
# Memory: 0 vectors, 1000 the kernel, up to 17777 its stack; three regions of 10000 bytes from 20000 on, one for each
# program: its instructions (2000 bytes, its page 0, read only), at 4000 its data (2000 bytes, its page 1), at 7000 its
# stack (1000 bytes, the top of its page 6, which grows downward). It has no other page.

        rker = 0177402; rkcs = 0177404; rkwc = 0177406; rkba = 0177410; rkda = 0177412
        lks = 0177546
        rcsr = 0177560; rbuf = 0177562; xcsr = 0177564; xbuf = 0177566
        kpdr = 0172300; kpar = 0172340; updr = 0177600; upar = 0177640; sr0 = 0177572
        psw = 0177776; kstack = 020000

# A program's entry in the table: whether it is ready or for what it waits, its name, where its region is (in blocks of
# 64 bytes), its image, how often it has begun, how often it may, and its registers. While the program runs, the kernel's
# stack pointer is at the entry's end, so that a service pushes PS and PC into it.
        name = 2; region = 4; image = 6; begun = 010; chances = 012
        saved = 016; saved.r0 = 020; saved.r1 = 022; saved.pc = 034; saved.ps = 036; size = 040
        over = 0; ready = 1; wants.room = 2; wants.disk = 3; wants.line = 4; moves = 5

        .globl  start
start:  mov     $0340, *$psw            # no interrupts in the kernel
        mov     $kstack, sp
        mov     $vector, r0
1:      mov     (r0)+, r1
        beq     2f
        mov     (r0)+, (r1)+
        mov     $0340, (r1)
        br      1b
2:      jsr     pc, sum
        mov     r1, whole
        mov     $kpdr, r0               # the kernel's pages 0 to 2 are where they lie, page 7 is the I/O page
        mov     $077406, r1
        mov     r1, (r0)+
        mov     r1, (r0)+
        mov     r1, (r0)
        mov     r1, *$kpdr + 016
        mov     $kpar, r0
        clr     (r0)+
        mov     $0200, (r0)+
        mov     $0400, (r0)
        mov     $07600, *$kpar + 016
        mov     $updr, r0               # a program has the pages 0, 1 and 6
        mov     $8, r1
1:      clr     (r0)+
        sob     r1, 1b
        mov     $07402, *$updr          # 16 blocks, read only
        mov     $07406, *$updr + 2      # 16 blocks
        mov     $074016, *$updr + 014   # the 8 blocks at its top, downward
        inc     *$sr0                   # mapping on
        mov     $hello, r1
        jsr     pc, type
        mov     $table, r4
1:      jsr     pc, load
        add     $size, r4
        cmp     r4, $behind
        blo     1b
        mov     $0100, *$rcsr
        mov     $0100, *$lks
        jmp     sched

# What the kernel's instructions and constants sum to, in R1.
sum:    clr     r1
        mov     $start, r0
1:      add     (r0)+, r1
        cmp     r0, $constant
        blo     1b
        rts     pc

# A program's image is put into its region, with zeros behind it, and its registers are as at its start: R0 says how
# often it has begun before.
load:   mov     region(r4), r2
        ash     $6, r2
        mov     image(r4), r1
        mov     $512, r0
1:      mov     (r1)+, (r2)+
        sob     r0, 1b
        mov     $1536, r0
1:      clr     (r2)+
        sob     r0, 1b
        mov     r4, r1
        add     $saved, r1
        mov     $0160000, (r1)+         # the user's stack pointer
        mov     begun(r4), (r1)+        # R0
        mov     $5, r0
1:      clr     (r1)+
        sob     r0, 1b
        clr     (r1)+                   # PC
        mov     $0170000, (r1)          # user mode, and user mode before, priority 0
        mov     $ready, (r4)
        rts     pc

# The next program that is ready, after the one that ran last. If none is, the processor waits for an interrupt, which
# comes here again.
sched:  mov     $kstack, sp
        mov     last, r4
        mov     $3, r0
1:      add     $size, r4
        cmp     r4, $behind
        blo     2f
        mov     $table, r4
2:      cmp     (r4), $ready
        beq     run
        sob     r0, 1b
        clr     now
        clr     *$psw
1:      wait
        br      1b

# The program that was interrupted goes on, or the next one if none was.
goon:   mov     now, r4
        beq     sched

# The program at R4 goes on.
run:    mov     r4, now
        mov     r4, last
        mov     region(r4), r0
        mov     r0, *$upar
        add     $040, r0
        mov     r0, *$upar + 2
        sub     $0140, r0
        mov     r0, *$upar + 014
        mov     $030340, *$psw          # the previous mode is the user's, for MTPI
        mov     r4, sp
        add     $saved, sp
        mtpi    sp
        mov     (sp)+, r0
        mov     (sp)+, r1
        mov     (sp)+, r2
        mov     (sp)+, r3
        mov     (sp)+, r4
        mov     (sp)+, r5
        rtt

# How a service begins, by JSR R5: what the program has in its registers goes into its entry, R4 is the entry, and the
# kernel's stack is empty. A fault of the kernel's own is one of the address that a program gave to a call, or an error.
fault:  bit     $0140000, 4(sp)
        bne     save
        mov     $kstack, sp
        mov     now, r4
        tst     fetch
        bne     1f
        mov     $broken, r1
        jsr     pc, type
        jmp     stop
1:      clr     fetch
        bic     $0160000, *$sr0
        jmp     badarg
save:   bit     $0140000, 4(sp)
        beq     1f
        mov     r4, -(sp)
        mov     r3, -(sp)
        mov     r2, -(sp)
        mov     r1, -(sp)
        mov     r0, -(sp)
        mfpi    sp
1:      mov     $kstack, sp
        mov     now, r4
        jmp     (r5)

# The call of a program. It is at 2000, an address that no program has.
        . = start + 01000
emt:    jsr     r5, fault
        mov     saved.pc(r4), r1
        inc     fetch
        mfpi    -2(r1)
        clr     fetch
        mov     (sp)+, r1
        bic     $0177400, r1
        cmp     r1, $4
        bhi     nocall
        asl     r1
        jmp     *calls(r1)
nocall: mov     $nocode, r1
        br      1f
badarg: mov     $notown, r1
1:      clr     r5
        jmp     end

# The call is made again when what it waits for may be there: R1 says what.
again:  mov     r1, (r4)
        sub     $2, saved.pc(r4)
        jmp     sched

# Those that wait for what R1 says are ready.
wake:   mov     $table, r0
1:      cmp     (r0), r1
        bne     2f
        mov     $ready, (r0)
2:      add     $size, r0
        cmp     r0, $behind
        blo     1b
        rts     pc

# Call 1. The text is taken as a whole, so lines of two programs don't mix.
write:  mov     saved.r0(r4), r1
        mov     $text, r2
1:      mov     r1, r3
        bic     $1, r3
        inc     fetch
        mfpi    (r3)
        clr     fetch
        mov     (sp)+, r0
        bit     $1, r1
        beq     2f
        swab    r0
2:      inc     r1
        movb    r0, (r2)+
        beq     3f
        cmp     r2, $text + 80
        blo     1b
        br      badarg
3:      sub     $text, r2
        mov     tail, r0
        sub     head, r0
        dec     r0
        bic     $0177000, r0
        mov     $wants.room, r1
        cmp     r2, r0
        bhi     again
        mov     $text, r1
        jsr     pc, type
        jmp     run

# Where R0 of a program points to in its data, as an address of memory in R2; there must be room for a block.
place:  mov     saved.r0(r4), r2
        bit     $1, r2
        bne     1f
        sub     $020000, r2
        bcs     1f
        cmp     r2, $01000
        bhi     1f
        mov     region(r4), r3
        add     $040, r3
        ash     $6, r3
        add     r3, r2
        rts     pc
1:      tst     (sp)+
        br      badarg

# Calls 2 and 3.
rdisk:  mov     $0105, r5               # RKCS: interrupt, read, GO
        br      move
wdisk:  mov     $0103, r5               # interrupt, write, GO
move:   mov     $wants.disk, r1
        tst     mover
        bne     again
        jsr     pc, place
        mov     saved.r1(r4), r1
        cmp     r1, $4871
        bhi     badarg
        mov     r4, mover
        mov     $-256, *$rkwc
        mov     r2, *$rkba
        mov     r1, r3
        clr     r2
        div     $12, r2                 # the track, and the sector in it
        ash     $4, r2
        bis     r3, r2
        mov     r2, *$rkda
        mov     r5, *$rkcs
        mov     $moves, (r4)
        jmp     sched

# Call 4. The next line may have been typed already, and stands in the receiver then.
rline:  mov     $wants.line, r1
        tst     typed
        beq     again
        jsr     pc, place
        mov     $line, r1
1:      movb    (r1)+, (r2)+
        bne     1b
        sub     $line + 1, r1
        mov     r1, saved.r0(r4)
        mov     $line, filled
        clr     typed
        jsr     pc, take
        jmp     run

# Call 0.
exit:   mov     $isover, r1
        jsr     pc, tells
        br      gone

# The kernel, the program's name, and the text at R1.
tells:  mov     r1, -(sp)
        mov     $from, r1
        jsr     pc, type
        movb    name(r4), r0
        jsr     pc, put
        mov     (sp)+, r1
        jmp     type

# A program is ended: R1 says why, and R5 is SR0, if a page is why.
end:    mov     r1, -(sp)
        mov     $hasend, r1
        jsr     pc, tells
        mov     (sp)+, r1
        jsr     pc, type
        tst     r5
        beq     2f
        mov     r5, -(sp)
        mov     $causes, r1             # a text for each of SR0's bits 15:13
1:      asl     r5
        bcc     3f
        jsr     pc, type
        br      4f
3:      tstb    (r1)+
        bne     3b
4:      cmp     r1, $bypage
        blo     1b
        jsr     pc, type
        mov     (sp)+, r0
        asr     r0
        bic     $0177770, r0
        add     $'0, r0
        jsr     pc, put
2:      mov     $atpc, r1
        jsr     pc, type
        mov     saved.pc(r4), r1
        jsr     pc, octal
        mov     $withps, r1
        jsr     pc, type
        mov     saved.ps(r4), r1
        bic     $037, r1
        jsr     pc, octal
        mov     $crlf, r1
        jsr     pc, type
        inc     begun(r4)
        cmp     begun(r4), chances(r4)
        bhis    gone
        jsr     pc, load
        jmp     sched
gone:   mov     $over, (r4)
        dec     left
        beq     1f
        jmp     sched
1:      mov     $allend, r1
        jsr     pc, type
        jsr     pc, sum
        mov     r1, r5
        mov     $same, r1
        cmp     r5, whole
        beq     2f
        mov     $differ, r1
2:      jsr     pc, type
stop:   jsr     pc, send
        cmp     tail, head
        bne     stop
1:      tstb    *$xcsr
        bpl     1b
        halt
        br      .

# Traps of a program.
odd:    jsr     r5, fault
        mov     $isodd, r1
        br      1f
resvd:  jsr     r5, fault
        mov     $noword, r1
        br      1f
other:  jsr     r5, fault
        mov     $istrap, r1
1:      clr     r5
        br      end
abort:  jsr     r5, fault
        mov     *$sr0, r5
        bic     $0160000, *$sr0
        mov     $empty, r1
        jmp     end

# Interrupts. Each looks whether what asked for it still stands: a request stays if its cause goes.
tick:   jsr     r5, save
        tstb    *$lks
        bpl     1f
        mov     $0100, *$lks
        jmp     sched
sent:   jsr     r5, save
        jsr     pc, send
1:      jmp     goon
key:    jsr     r5, save
        jsr     pc, take
        jmp     goon
disk:   jsr     r5, save
        tstb    *$rkcs
        bpl     1b
        mov     mover, r1
        beq     1b
        clr     mover
        mov     *$rker, saved.r0(r1)
        beq     2f
        mov     $1, *$rkcs              # a control reset takes the error away
2:      mov     $ready, (r1)
        mov     $wants.disk, r1
        jsr     pc, wake
        jmp     goon

# The next byte of the ring goes out, if the transmitter is ready; those that wait for room are ready once it is empty.
send:   tstb    *$xcsr
        bpl     2f
        mov     tail, r2
        cmp     r2, head
        beq     1f
        movb    ring(r2), *$xbuf
        inc     r2
        bic     $0177000, r2
        mov     r2, tail
        rts     pc
1:      clr     *$xcsr
        mov     $wants.room, r1
        jsr     pc, wake
2:      rts     pc

# The byte in R0 goes into the ring. The kernel waits itself if there is no room.
put:    mov     head, r3
        movb    r0, ring(r3)
        inc     r3
        bic     $0177000, r3
        mov     r2, -(sp)
1:      cmp     r3, tail
        bne     2f
        jsr     pc, send
        br      1b
2:      mov     (sp)+, r2
        mov     r3, head
        mov     $0100, *$xcsr
        rts     pc

# The text at R1; R1 is behind it then.
type:   movb    (r1)+, r0
        beq     1f
        jsr     pc, put
        br      type
1:      rts     pc

# R1 in six octal digits.
octal:  mov     $6, r2
        clr     r0
        br      2f
1:      clr     r0
        asl     r1
        rol     r0
        asl     r1
        rol     r0
2:      asl     r1
        rol     r0
        add     $'0, r0
        jsr     pc, put
        sob     r2, 1b
        rts     pc

# A key, if the receiver has one and no line stands: else it stays there until a program has taken the line.
take:   tst     typed
        bne     9f
        tstb    *$rcsr
        bpl     9f
        movb    *$rbuf, r0
        bic     $0177600, r0
        mov     filled, r2
        cmp     r0, $015
        beq     1f
        cmp     r0, $0177
        beq     2f
        cmp     r2, $line + 56
        bhis    9f
        movb    r0, (r2)+
        mov     r2, filled
        br      put
1:      clrb    (r2)
        inc     typed
        mov     $wants.line, r1
        jsr     pc, wake
        mov     $crlf, r1
        br      type
2:      cmp     r2, $line
        beq     9f
        dec     filled
        mov     $rubout, r1
        br      type
9:      rts     pc

vector: .word   4, odd, 010, resvd, 014, other, 020, other, 030, emt, 034, other, 0250, abort
        .word   060, key, 064, sent, 0100, tick, 0220, disk, 0
calls:  .word   exit, write, rdisk, wdisk, rline
hello:  .asciz  "KERNEL: three programs, in pages of their own\r\n"
from:   .asciz  "kernel: "
isover: .asciz  " is done\r\n"
hasend: .asciz  " is ended: "
causes: .asciz  "not resident, "
        .asciz  "page length, "
        .asciz  "read only, "
bypage: .asciz  "page "
atpc:   .asciz  ", PC "
withps: .asciz  ", PS "
crlf:   .asciz  "\r\n"
empty:  .asciz  ""
isodd:  .asciz  "odd address, or nothing answers"
noword: .asciz  "reserved instruction"
istrap: .asciz  "trap instruction"
nocode: .asciz  "no such call"
notown: .asciz  "an address in a call that isn't its own"
allend: .asciz  "kernel: all programs are over, and the kernel is "
same:   .asciz  "whole\r\n"
differ: .asciz  "CHANGED\r\n"
broken: .asciz  "kernel: a fault of its own\r\n"
rubout: .asciz  "\b \b"
        .even
constant:

# What changes: the table of the programs, and the rings.
table:  .word   ready, 'P, 0200, primes, 0, 1
        . = table + size; .word ready, 'D, 0300, note, 0, 1
        . = table + size + size; .word ready, 'M, 0400, deeds, 0, 14
        . = table + size + size + size
behind:
left:   .word   3
now:    .word   0                       # the program that runs, or 0
last:   .word   behind - size
mover:  .word   0                       # the program for which the disk moves a block, or 0
fetch:  .word   0                       # not 0 while a program's memory is read for it
whole:  .word   0
head:   .word   0                       # the ring's next place to be filled, and the next to be sent
tail:   .word   0
typed:  .word   0                       # not 0 if a line was typed that nobody has taken
filled: .word   line
line:   . = . + 60
text:   . = . + 80
ring:   . = . + 01000

# The programs. Each has the addresses from 0 on, so a label's address is its distance from the program's first.
# P: the primes below 1000, ten in a line.
primes: mov     $2, r1                  # the next number
1:      mov     $020000, r5             # a line
        movb    $'P, (r5)+
        movb    $':, (r5)+
        mov     $10, r4
2:      cmp     r1, $1000
        bhis    6f
        mov     $3, r0                  # a divisor
3:      mov     r1, r3
        clr     r2
        div     r0, r2
        cmp     r0, r2
        bhi     4f                      # its square is above the number
        tst     r3
        beq     5f
        add     $2, r0
        br      3b
4:      movb    $040, (r5)+
        mov     r1, r3
        jsr     pc, digits
        dec     r4
5:      inc     r1
        bis     $1, r1
        tst     r4
        bne     2b
        jsr     pc, tell
        br      1b
6:      jsr     pc, tell
        emt     0
digits: clr     r2                      # R3 in decimal digits
        div     $10, r2
        mov     r3, -(sp)
        mov     r2, r3
        beq     1f
        jsr     pc, digits
1:      mov     (sp)+, r3
        add     $'0, r3
        movb    r3, (r5)+
        rts     pc
tell:   movb    $015, (r5)+
        movb    $012, (r5)+
        clrb    (r5)
        mov     $020000, r0
        emt     1
        rts     pc
        . = primes + 02000

# D: types the note that block 100 of the disk has, and takes a new one.
note:   mov     $020000, r0
        mov     $100, r1
        emt     2
        tst     r0
        bne     failed
        mov     $nonote - note, r0
        tstb    *$020000
        beq     1f
        mov     $020000, r0
1:      emt     1
        mov     $asks - note, r0
        emt     1
        mov     $021000, r0
        emt     4
        tst     r0
        beq     4f
        mov     $020000, r1             # the note's line: its front, what was typed, and an end
        mov     $begins - note, r2
2:      movb    (r2)+, (r1)+
        bne     2b
        dec     r1
        mov     $021000, r2
3:      movb    (r2)+, (r1)+
        bne     3b
        movb    $015, -1(r1)
        movb    $012, (r1)+
        clrb    (r1)
        mov     $020000, r0
        mov     $100, r1
        emt     3
        tst     r0
        bne     failed
        mov     $021000, r0
        mov     $100, r1
        emt     2
        tst     r0
        bne     failed
        mov     $020000, r1             # is what was read what was written?
        mov     $021000, r2
        mov     $256, r3
5:      cmp     (r1)+, (r2)+
        bne     failed
        sob     r3, 5b
        mov     $noted - note, r0
        emt     1
4:      emt     0
failed: mov     $error - note, r0
        emt     1
        emt     0
nonote: .asciz  "D: there is no note yet\r\n"
asks:   .asciz  "D: a new note, and a return?\r\n"
begins: .asciz  "D: the note is: "
noted:  .asciz  "D: noted, and read back\r\n"
error:  .asciz  "D: the disk fails\r\n"
        .even
        . = note + 02000

# M: says what it is about to do, lets some time pass, and does it: its deed of the number R0, which is at 100 and 20
# bytes on for each. The last is none.
deeds:  mov     r0, r4
        mov     r0, r1
        mov     $texts - deeds, r0
1:      dec     r1
        bmi     3f
2:      tstb    (r0)+
        bne     2b
        br      1b
3:      emt     1
        mov     $3000, r1
4:      sob     r1, 4b
        ash     $4, r4
        jmp     0100(r4)
        . = deeds + 0100; clr *$0  # its own first instruction
        . = deeds + 0120; clr *$040000
        . = deeds + 0140; movb $'X, *$xbuf
        . = deeds + 0160; jmp *$emt
        . = deeds + 0200; halt
        . = deeds + 0220; mov $0, *$psw
        . = deeds + 0240; mov $0340, -(sp) # kernel mode, priority 7
        mov     $0252, -(sp)
        rti
        halt                            # at 252
        . = deeds + 0260; mov r0, -(sp)
        mtpi    *$emt
        . = deeds + 0300; mov r0, -(sp); br . - 2
        . = deeds + 0320; mov *$1, r0
        . = deeds + 0340; mov $030000, r0
        emt     1
        . = deeds + 0360; emt 077
        . = deeds + 0400; bpt
        . = deeds + 0420; reset
        wait
        mov     $still - deeds, r0
        emt     1
        emt     0
texts:  .asciz  "M: writes over its own instructions\r\n"
        .asciz  "M: writes to a page that it hasn't got\r\n"
        .asciz  "M: writes to the console's transmitter\r\n"
        .asciz  "M: jumps into the kernel\r\n"
        .asciz  "M: halts\r\n"
        .asciz  "M: writes the status word at its address\r\n"
        .asciz  "M: RTI to kernel mode, and then HALT\r\n"
        .asciz  "M: MTPI into the kernel\r\n"
        .asciz  "M: fills its stack\r\n"
        .asciz  "M: reads a word at an odd address\r\n"
        .asciz  "M: gives the kernel an address to type\r\n"
        .asciz  "M: makes a call that there isn't\r\n"
        .asciz  "M: BPT\r\n"
        .asciz  "M: RESET, and WAIT for an interrupt\r\n"
still:  .asciz  "M: the devices are as they were\r\n"
        .even
        . = deeds + 02000
