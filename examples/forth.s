# FORTH-83 for the PDP-11/40: boots from sector 0 of drive 0, compiles, keeps blocks on RK05 packs, and runs tasks. Its
# pack has the texts of the folder forth/ too:
#   examples/asm --at 0 -o examples/forth.pack examples/forth.s
#   examples/forth-pack examples/forth.pack
# The pack of examples/evening has it as a program of its menu, all but its first sector, and the texts as a file.
#
# Direct threading. A thread is a list of addresses of code; R4 points behind the one that runs, and NEXT is JMP @(R4)+.
# A colon definition begins with JSR R4,@#docol, which pushes the caller's R4 and makes R4 its body. So SP is the return
# stack; R5 is the data stack, R3 the running task's own variables, and R0 to R2 are free for any word.
#
# Memory by pages of the KT11-D, which is on:
#   0       vectors, the return stack (its end is the stack limit), code of the devices, variables, buffers
#   1       the dictionary as it ships, which can't be written
#   2 to 5  the user's definitions, as far as there is memory
#   6       the data stack: the last 1,024 bytes, and nothing before them, so one that is too full is an abort; it ends
#           where the I/O page begins with an address at which nothing answers, so an empty one is a trap
#   7       the I/O page

        .set    ps, 0177776
        .set    rcsr, 0177560           # DL11: receiver status and buffer, transmitter status and buffer
        .set    rbuf, 0177562
        .set    xcsr, 0177564
        .set    xbuf, 0177566
        .set    lks, 0177546            # KW11-L
        .set    rker, 0177402           # RK11: errors, control, disk address
        .set    rkcs, 0177404
        .set    rkda, 0177412
        .set    sr0, 0177572            # KT11-D
        .set    pdr, 0172300
        .set    par, 0172340

        .set    rtop, 01400             # where the main task's return stack begins, growing down to 400
        .set    stop, 0160000           # where its data stack begins
        .set    image, 32               # sectors that this program takes; block 0 is behind them
        .set    room, 2400              # blocks of a drive
        .set    drives, 8
        .set    none, 077777            # no block

# A task's own variables, as offsets from R3.
        .set    u_sp, 2                 # behind the link to the next task: SP while another runs
        .set    u_awake, 4              # 0: it isn't run
        .set    u_s0, 6                 # where its stacks begin
        .set    u_r0, 010
        .set    u_base, 012
        .set    u_hld, 014              # the last digit of a number that is being made, which end before u_end
        .set    u_end, 0100

        .globl  start
start:  br      boot

# The first sector reads the others behind itself. The return stack takes this place afterwards, and that of the vectors.
        . = start + 0400
boot:   mov     $rkda, r0
        mov     $1, (r0)                # from sector 1
        mov     $01000, -(r0)           # to 1000
        mov     $-017400, -(r0)         # to the end of page 1
        mov     $5, -(r0)               # read, GO
1:      tstb    (r0)
        bpl     1b
        tst     (r0)
        bmi     2f
        jmp     vectors
2:      halt                            # the pack can't be read: RKER says why
        br      boot

# A menu that has read all from here on to its place begins here. Its pack says how many sectors block 0 lies behind sector
# 32, and how many blocks there are.
        . = start + 01000
menu:   br      1f
        .word   0, room
1:      mov     menu + 2, behind0
        mov     menu + 4, room0
vectors:mov     $1f, r0
2:      mov     (r0)+, r1
        mov     (r0)+, (r1)+
        mov     (r0)+, (r1)
        cmp     r0, $3f
        bne     2b
        br      cold
1:      .word   0, 3, 3                 # BPT: who goes to 0 finds no code
        .word   4, trap, 0340, 010, trap, 0341, 014, trap, 0342, 020, trap, 0343, 024, trap, 0344, 030, trap, 0345
        .word   034, trap, 0346         # each trap has its number in the condition codes of its new status word
        .word   0250, trap, 0347
        .word   060, key_in, 0200, 064, key_out, 0200, 0100, tick, 0300
3:

# How much memory there is, the pages, and the first task.
        . = start + rtop
        .word   under, under, under, under      # what an EXIT too many finds
cold:   mov     $rtop, sp
        mov     $2f, *$4                # looks for the first 4 K words that don't answer
        clr     r0
1:      tst     (r0)
        add     $020000, r0
        cmp     r0, $0160000
        bne     1b
2:      mov     $rtop, sp
        mov     $trap, *$4
        mov     r0, memory
        cmp     r0, $060000
        bhis    4f
        mov     $small, r1              # too little: says so, and halts
3:      tstb    *$xcsr
        bpl     3b
        movb    (r1)+, *$xbuf
        bne     3b
        halt
        br      cold
4:      mov     $par, r1
        clr     r2
5:      mov     $077406, pdr-par(r1)    # pages 0 to 6 where they are
        mov     r2, (r1)+
        add     $0200, r2
        cmp     r2, $01600
        bne     5b
        mov     $077406, pdr-par(r1)    # page 7: the I/O page
        mov     $07600, (r1)
        mov     $077402, *$pdr+2        # page 1 for reads alone
        mov     $070016, *$pdr+014      # page 6: its last 20 blocks, which are memory's last ones
        mov     r0, r1
        sub     $020000, r1
        ash     $-6, r1
        bic     $0176000, r1
        mov     r1, *$par+014
        sub     $02000, r0              # definitions go no further
        cmp     r0, $0140000
        blos    6f
        mov     $0140000, r0
6:      mov     r0, top
        mov     $1, *$sr0
        mov     $0100, *$rcsr
        mov     $0100, *$lks
        mov     $main, r3
        mov     u_s0(r3), r5
        clr     *$ps
        mov     $hello, r4
        jmp     *(r4)+

small:  .asciz  "FORTH wants 12 K words of memory.\r\n"
        .even

# A key comes. If the ring is full it stays in the DL11, and those behind it wait on the line; KEY asks for it again.
# Ctrl-C doesn't wait: the keys before it are dropped, and the main task is stopped; a second one stops any task.
key_in: mov     r0, -(sp)
        mov     r1, -(sp)
        tstb    *$rcsr
        bpl     9f                      # there is none
        mov     inhead, r0
        mov     r0, r1
        inc     r1
        bic     $0176000, r1
        cmp     r1, intail
        bne     1f
        mov     $1, stalled
        br      9f
1:      movb    *$rbuf, inring(r0)
        cmpb    inring(r0), $3
        beq     2f
        mov     r1, inhead
        br      9f
2:      mov     r0, intail
        tst     broke
        bne     3f
        inc     broke
        cmp     r3, $main
        bne     9f                      # it is stopped when it is its turn
        cmp     4(sp), $relax
        blo     3f
        cmp     4(sp), $switched
        blo     9f                      # its registers are on their way
3:      mov     $break, 4(sp)
9:      mov     (sp)+, r1
        mov     (sp)+, r0
# The end of an interrupt: each task has to look anew for what it waits for, and one may just have looked in vain; so
# QUIET is -1. If the WAIT is about to be done, it is left out.
awaken: mov     $-1, quiet
        cmp     (sp), $asleep
        bne     1f
        add     $2, (sp)
1:      rti

# The transmitter is ready: the next character, or no more interrupts if there is none.
key_out:mov     r0, -(sp)
        tstb    *$xcsr
        bpl     2f                      # it isn't
        mov     outtail, r0
        cmp     r0, outhead
        bne     1f
        clr     *$xcsr
        br      2f
1:      movb    outring(r0), *$xbuf
        inc     r0
        bic     $0177600, r0
        mov     r0, outtail
2:      mov     (sp)+, r0
        br      awaken

tick:   mov     $0100, *$lks            # takes the monitor bit away
        inc     ticks
        br      awaken

# A task that waits for something calls RELAX, one that has only been kind to the others SWITCH; both return when it is
# its turn again. If all that are awake wait, so does the processor.
relax:  inc     quiet
        mov     $0340, *$ps
        cmp     quiet, awake
        blt     1f
        clr     quiet
        clr     *$ps
asleep: wait
1:      clr     *$ps
        br      2f
switch: clr     quiet
2:      mov     r4, -(sp)
        mov     r5, -(sp)
        mov     sp, u_sp(r3)
3:      mov     (r3), r3
        tst     u_awake(r3)
        beq     3b
        mov     u_sp(r3), sp
        mov     (sp)+, r5
        mov     (sp)+, r4
        cmp     r3, $main
        bne     4f
        tst     broke
        bne     break
4:      rts     pc
switched:

# Ctrl-C: whatever ran is left. A task that isn't the main one sleeps from now on.
break:  cmp     r3, $main
        beq     1f
        clr     u_awake(r3)
        mov     $main, r3
1:      clr     broke
        mov     $broken, r4
        br      afresh

# A trap: its number, the page that was aborted and both stacks say what it means. Then the task begins afresh, with
# empty stacks, the address of the trap and the message, and its thread is TRAPPED.
trap:   mov     *$ps, r0
        bic     $0177760, r0
        beq     2f
        mov     $m_code, r2
        cmp     r0, $7
        bne     3f
        mov     *$sr0, r0
        bic     $0177761, r0
        mov     $m_kept, r2
        cmp     r0, $2
        beq     3f
        mov     $m_full, r2
        cmp     r0, $014
        beq     3f
2:      mov     $m_bad, r2
        cmp     r5, u_s0(r3)
        blo     3f
        mov     $m_empty, r2
3:      mov     (sp), r1
        mov     $1, *$sr0               # the abort is dealt with
        cmp     sp, $0400
        bhis    4f
        mov     $m_deep, r2
4:      mov     $trapped, r4
afresh: mov     u_r0(r3), sp
        mov     u_s0(r3), r5
        clr     *$ps
        clr     *$rcsr                  # what a handler may have left undone
        mov     $0100, *$rcsr
        clr     *$xcsr
        mov     $0100, *$xcsr
        mov     r1, -(r5)
        mov     r2, -(r5)
        jsr     pc, census
        jmp     *(r4)+

        .macro  str text                # a counted string
        .byte   99f - 98f
98:     .ascii  "\text"
99:     .even
        .endm
m_bad:  str     "bad address"
m_code: str     "no code"
m_kept: str     "protected"
m_full: str     "stack full"
m_empty:str     "stack empty"
m_deep: str     "return stack full"

# How many tasks are awake.
census: mov     r3, -(sp)
        clr     awake
1:      tst     u_awake(r3)
        beq     2f
        inc     awake
2:      mov     (r3), r3
        cmp     r3, (sp)
        bne     1b
        mov     (sp)+, r3
        rts     pc

# What changes, but for the tasks' own variables.
main:   .word   main, 0, 1, stop, rtop, 10, main + u_end
        . = main + u_end
memory: .word   0                       # where memory ends
top:    .word   0                       # where definitions may end
behind0:.word   0                       # on drive 0: how many sectors block 0 lies behind its place, and how many blocks there are
room0:  .word   room
awake:  .word   1                       # tasks that are awake, and those of them that waited since something came
quiet:  .word   0
broke:  .word   0                       # Ctrl-C came
stalled:.word   0                       # a key is left in the DL11
ticks:  .word   0
inhead: .word   0                       # where the next key goes, and where the next one to be taken is
intail: .word   0
outhead:.word   0
outtail:.word   0
dp:     .word   040000                  # HERE
forth:  .word   last                    # the newest word of the vocabulary FORTH, and the next vocabulary
        .word   0
vocs:   .word   forth                   # the newest vocabulary
contxt: .word   forth
currnt: .word   forth
newest: .word   040000                  # the code of the newest definition; HERE doesn't go back before it
inat:   .word   0                       # >IN
blk:    .word   0
scr:    .word   0
span:   .word   0
ntib:   .word   0
state:  .word   0
csp:    .word   0
dpl:    .word   0
digits: .word   0                       # of the number that was read
left:   .word   0                       # characters that are left behind the text that was read
flags:  .word   0                       # of the word that was found, and its header
entry:  .word   0
doing:  .word   0                       # the code that the interpreter did last
cols:   .word   0                       # characters on the line
before: .word   0                       # the key before this one
spot:   .word   bufs                    # the buffer that was used last, and the one that was emptied last
victim: .word   0
bufs:   .word   none, none, none, none  # the blocks in the buffers; those that were changed are negative
token:  . = . + 34                      # a name in capitals, as it is looked for
failed: . = . + 34                      # the word that is done, for messages
tib:    . = . + 256
outring:. = . + 128
        .even
inring: . = . + 1024
bufmem: . = . + 4096

# The dictionary. A header is the link to the word before, a count with flags, and the name in capitals; the code begins
# at the next even address.
        .set    now, 0200               # done while a definition is compiled
        .set    only, 040               # only for definitions
        .set    hidden, 0100            # not yet done
        .set    link, 0
        . = start + 020000

        .macro  head label, name, flag=0
        .even
h_\label:
        .word   link
        .set    link, h_\label
        .byte   99f - 98f + \flag
98:     .ascii  "\name"
99:     .even
\label:
        .endm
        .macro  colon label, name, flag=0
        head    \label, "\name", \flag
        jsr     r4, *$docol
        .endm
        .macro  var label, name, place
        head    \label, "\name"
        jsr     pc, *$docon
        .word   \place
        .endm
        .macro  say text                # types it
        .word   xstr
        str     "\text"
        .word   type
        .endm
        .macro  fails text
        .word   fail
        str     "\text"
        .endm
        .macro  next
        jmp     *(r4)+
        .endm

# The code of colon definitions, constants, variables, and what DOES> makes.
docol:  next
docon:  mov     *(sp)+, -(r5);    next
dovar:  mov     (sp)+, -(r5);     next
douser: mov     *(sp)+, -(r5);    add     r3, (r5);         next
dodoes: mov     (sp)+, r0;        mov     (sp), -(r5);      mov     r0, (sp)
        next

# Threads: numbers, branches, loops, strings. A loop has on the return stack the address behind it, the limit and
# the index, both so that the index overflows when it crosses from below the limit to it, or back.
lit:    mov     (r4)+, -(r5);     next
zbran:  tst     (r5)+;            beq     bran;             tst     (r4)+
        next
bran:   mov     (r4), r4;         next
xdo:    mov     (r4)+, -(sp);     mov     (r5)+, r0;        mov     (r5)+, r1
        add     $0100000, r1;     mov     r1, -(sp);        sub     r1, r0
        mov     r0, -(sp);        next
xploop: add     (r5)+, (sp);      bvc     bran;             br      1f
xloop:  inc     (sp);             bvc     bran
1:      tst     (r4)+;            add     $6, sp;           next
xstr:   clr     r0                      # ( -- address count ), of the string that follows
        bisb    (r4)+, r0;        mov     r4, -(r5);        mov     r0, -(r5)
        add     r0, r4;           inc     r4;               bic     $1, r4
        next

# The stack.
        head    dup, "DUP";       mov     (r5), -(r5);      next
        head    drop, "DROP";     tst     (r5)+;            next
        head    swap, "SWAP";     mov     2(r5), r0;        mov     (r5), 2(r5)
                                  mov     r0, (r5);         next
        head    over, "OVER";     mov     2(r5), -(r5);     next
        head    rot, "ROT";       mov     4(r5), r0;        mov     2(r5), 4(r5);     mov     (r5), 2(r5)
                                  mov     r0, (r5);         next
        head    nip, "NIP";       mov     (r5)+, (r5);      next
        head    qdup, "?DUP"
        tst     (r5);             beq     1f;               mov     (r5), -(r5)
1:      next
        head    pick, "PICK";     mov     (r5), r0;         asl     r0;               add     r5, r0
                                  mov     2(r0), (r5);      next
        head    roll, "ROLL"
        mov     (r5)+, r0;        asl     r0;               add     r5, r0
        mov     (r0), r1
1:      cmp     r0, r5;           blos    2f;               mov     -(r0), 2(r0)
        br      1b
2:      mov     r1, (r5);         next
        head    depth, "DEPTH";   mov     u_s0(r3), r0;     sub     r5, r0;           asr     r0
                                  mov     r0, -(r5);        next
        head    spat, "SP@";      mov     r5, r0;           mov     r0, -(r5);        next
        head    tor, ">R", only;  mov     (r5)+, -(sp);     next
        head    fromr, "R>", only; mov     (sp)+, -(r5);    next
        head    rat, "R@", only;  mov     (sp), -(r5);      next
        head    ddrop, "2DROP";   cmp     (r5)+, (r5)+;     next
        head    ddup, "2DUP";     mov     2(r5), -(r5);     mov     2(r5), -(r5);     next
        head    dover, "2OVER";   mov     6(r5), -(r5);     mov     6(r5), -(r5);     next
        colon   dswap, "2SWAP";           .word   rot, tor, rot, fromr, exit
        colon   drot, "2ROT";             .word   lit, 5, roll, lit, 5, roll, exit

# Memory.
        head    at, "@";          mov     *(r5), (r5);      next
        head    store, "!";       mov     2(r5), *(r5);     cmp     (r5)+, (r5)+;     next
        head    cat, "C@";        clr     r0;               bisb    *(r5), r0
                                  mov     r0, (r5);         next
        head    cstore, "C!";     movb    2(r5), *(r5);     cmp     (r5)+, (r5)+;     next
        head    plusst, "+!";     add     2(r5), *(r5);     cmp     (r5)+, (r5)+;     next
        head    dat, "2@";        mov     (r5), r0;         mov     2(r0), (r5)
                                  mov     (r0), -(r5);      next
        head    dstore, "2!";     mov     (r5), r0;         mov     2(r5), (r0)+;     mov     4(r5), (r0)
                                  add     $6, r5;           next
        head    cmove, "CMOVE"
        jsr     pc, moving;       beq     2f
1:      movb    (r0)+, (r1)+;     sob     r2, 1b
2:      add     $6, r5;           next
moving: mov     4(r5), r0               # from, to, how many
        mov     2(r5), r1;        mov     (r5), r2;         rts     pc
        head    cmoveu, "CMOVE>"
        jsr     pc, moving;       beq     2f;               add     r2, r0
        add     r2, r1
1:      movb    -(r0), -(r1);     sob     r2, 1b
2:      add     $6, r5;           next
        colon   move, "MOVE";             .word   tor, ddup, uless, zbran, 1f, fromr, cmoveu, exit
1:      .word   fromr, cmove, exit
        head    fill, "FILL"
        mov     4(r5), r0;        mov     2(r5), r1;        beq     2f
1:      movb    (r5), (r0)+;      sob     r1, 1b
2:      add     $6, r5;           next
        colon   erase, "ERASE";           .word   lit, 0, fill, exit
        colon   blank, "BLANK";           .word   bl, fill, exit
        head    count, "COUNT"
        mov     (r5), r1;         clr     r0;               bisb    (r1)+, r0
        mov     r1, (r5);         mov     r0, -(r5);        next
        head    dtrail, "-TRAILING"     # zeros, which new blocks have, are blanks as well
        mov     2(r5), r0;        add     (r5), r0
1:      tst     (r5);             beq     2f;               cmpb    -(r0), $040
        bhi     2f;               dec     (r5);             br      1b
2:      next

# Logic and comparisons.
        head    and, "AND";       mov     (r5)+, r0;        com     r0
                                  bic     r0, (r5);         next
        head    or, "OR";         bis     (r5)+, (r5);      next
        head    xor, "XOR";       mov     (r5)+, r0;        xor     r0, (r5);         next
        head    not, "NOT";       com     (r5);             next
        head    zeq, "0="
        tst     (r5);             beq     true
false:  clr     (r5);             next
true:   mov     $-1, (r5);        next
        head    zless, "0<"
        tst     (r5);             bmi     true;             br      false
        head    zgt, "0>"
        tst     (r5);             bgt     true;             br      false
        head    equal, "="
        cmp     (r5)+, (r5);      beq     true;             br      false
        head    differ, "<>"
        cmp     (r5)+, (r5);      bne     true;             br      false
        head    less, "<"
        cmp     (r5)+, (r5);      bgt     true;             br      false
        head    grtr, ">"
        cmp     (r5)+, (r5);      blt     true;             br      false
        head    uless, "U<"
        cmp     (r5)+, (r5);      bhi     true;             br      false
        head    ugrtr, "U>"
        cmp     (r5)+, (r5);      blo     true;             br      false
        colon   within, "WITHIN";         .word   over, minus, tor, minus, fromr, uless, exit

# Arithmetic.
        head    plus, "+";        add     (r5)+, (r5);      next
        head    minus, "-";       sub     (r5)+, (r5);      next
        head    onep, "1+";       inc     (r5);             next
        head    onem, "1-";       dec     (r5);             next
        head    twop, "2+";       add     $2, (r5);         next
        head    twom, "2-";       sub     $2, (r5);         next
        head    twot, "2*";       asl     (r5);             next
        head    twod, "2/";       asr     (r5);             next
        head    negate, "NEGATE"; neg     (r5);             next
        head    abs, "ABS"
        tst     (r5);             bpl     1f;               neg     (r5)
1:      next
        head    max, "MAX"
        cmp     (r5), 2(r5);      blt     1f;               mov     (r5), 2(r5)
1:      tst     (r5)+;            next
        head    min, "MIN"
        cmp     (r5), 2(r5);      bgt     1f;               mov     (r5), 2(r5)
1:      tst     (r5)+;            next
        head    times, "*";       mov     (r5)+, r1;        mul     (r5), r1
                                  mov     r1, (r5);         next
        head    mstar, "M*";      mov     (r5), r0;         mul     2(r5), r0;        mov     r1, 2(r5)
                                  mov     r0, (r5);         next
        head    umstar, "UM*"           # MUL has signs: a factor that is negative has counted 200000 too few
        mov     (r5), r0;         mul     2(r5), r0;        tst     (r5)
        bpl     1f;               add     2(r5), r0
1:      tst     2(r5);            bpl     2f;               add     (r5), r0
2:      mov     r1, 2(r5);        mov     r0, (r5);         next
        head    ummod, "UM/MOD"         # DIV if what it divides has no sign bit, and else bit by bit
        mov     (r5), r2;         beq     zerod;            bmi     1f
        mov     4(r5), r1;        mov     2(r5), r0;        bmi     1f
        div     r2, r0;           bvc     5f
1:      mov     4(r5), r1;        mov     2(r5), r0;        mov     $16, -(sp)
2:      asl     r1;               rol     r0;               bcs     3f
        cmp     r0, r2;           blo     4f
3:      sub     r2, r0;           inc     r1
4:      dec     (sp);             bne     2b;               tst     (sp)+
        mov     r0, r2                  # the remainder is where DIV has the quotient
        mov     r1, r0;           mov     r2, r1
5:      tst     (r5)+;            mov     r1, 2(r5);        mov     r0, (r5)
        next
zerod:  mov     $divzero, r4;     next
divzero:fails   "division by zero"
under:  fails   "return stack empty"
        head    mslmod, "M/MOD"         # ( d n -- remainder quotient ), rounded down
        mov     (r5), r2;         beq     zerod;            mov     4(r5), r1
        mov     2(r5), r0;        div     r2, r0;           bvc     1f
        mov     4(r5), r0               # only -32768 by -1 is allowed to be too large
        neg     r0;               clr     r1
1:      tst     r1;               beq     2f;               mov     r1, -(sp)
        xor     r2, (sp);         tst     (sp)+;            bpl     2f
        dec     r0;               add     r2, r1
2:      tst     (r5)+;            mov     r1, 2(r5);        mov     r0, (r5)
        next
        colon   slmod, "/MOD";            .word   tor, stod, fromr, mslmod, exit
        colon   slash, "/";               .word   slmod, nip, exit
        colon   mod, "MOD";               .word   slmod, drop, exit
        colon   smod, "*/MOD";            .word   tor, mstar, fromr, mslmod, exit
        colon   ssl, "*/";                .word   smod, nip, exit

# Double numbers: the high word on top.
        head    stod, "S>D";      mov     (r5), r0;         sxt     -(r5);            next
        head    dplus, "D+"
        mov     (r5)+, r0;        mov     (r5)+, r1;        add     r1, 2(r5)
        adc     (r5);             add     r0, (r5);         next
        head    dnegate, "DNEGATE"; neg     (r5);           neg     2(r5)
                                  sbc     (r5);             next
        head    dtwod, "D2/";     asr     (r5);             ror     2(r5);            next
        colon   dminus, "D-";             .word   dnegate, dplus, exit
        colon   dabs, "DABS"
        .word   dup, zless, zbran, 1f, dnegate
1:      .word   exit
        colon   dzeq, "D0=";              .word   or, zeq, exit
        colon   dequal, "D=";             .word   dminus, dzeq, exit
        colon   dless, "D<";              .word   rot, ddup, equal, zbran, 1f, ddrop, uless, exit
1:      .word   grtr, nip, nip, exit
        colon   duless, "DU<";            .word   rot, ddup, equal, zbran, 1f, ddrop, uless, exit
1:      .word   ugrtr, nip, nip, exit
        colon   dmax, "DMAX"
        .word   dover, dover, dless, zbran, 1f, dswap
1:      .word   ddrop, exit
        colon   dmin, "DMIN"
        .word   dover, dover, dless, not, zbran, 1f, dswap
1:      .word   ddrop, exit
        colon   mumod, "MU/MOD"         # ( ud u -- remainder ud )
        .word   tor, lit, 0, rat, ummod, fromr, swap, tor, ummod, fromr, exit

# Threads.
        head    exit, "EXIT", only; mov     (sp)+, r4;      next
        head    execute, "EXECUTE"
        cmp     (r5), $020000;    blo     1f;               jmp     *(r5)+
1:      mov     $nocode, r4;      next
nocode: fails   "no code"
        head    i, "I", only;     mov     (sp), -(r5);      add     2(sp), (r5);      next
        head    j, "J", only;     mov     6(sp), -(r5);     add     010(sp), (r5);    next
        head    k, "K", only;     mov     014(sp), -(r5);   add     016(sp), (r5);    next
        head    leave, "LEAVE", only; mov     4(sp), r4;    add     $6, sp;           next
        head    pause, "PAUSE";   jsr     pc, switch;       next

# The console. A character waits for room in the ring, a key for one that comes.
        head    emit, "EMIT"
1:      mov     outhead, r0;      mov     r0, r1;           inc     r1
        bic     $0177600, r1;     cmp     r1, outtail;      bne     2f
        jsr     pc, relax;        br      1b
2:      movb    (r5), outring(r0); mov     r1, outhead;     mov     $0100, *$xcsr
        inc     cols;             tst     (r5)+;            next
        head    keyq, "?KEY"
        cmp     inhead, intail;   bne     true1;            clr     -(r5)
        next
true1:  mov     $-1, -(r5);       next
        head    key, "KEY"
1:      mov     intail, r0;       cmp     r0, inhead;       bne     2f
        jsr     pc, relax;        br      1b
2:      clr     r1;               bisb    inring(r0), r1;   mov     r1, -(r5)
        inc     r0;               bic     $0176000, r0;     mov     r0, intail
        tst     stalled;          beq     3f
        clr     stalled                 # the DL11 still has one: its interrupt is asked for anew
        clr     *$rcsr;           mov     $0100, *$rcsr
3:      next
        colon   type, "TYPE"
        .word   lit, 0, max, bounds, xqdo, 2f
1:      .word   i, cat, emit, xloop, 1b
2:      .word   exit
bounds: mov     (r5), r0                # ( address count -- end address )
        add     2(r5), r0;        mov     2(r5), (r5);      mov     r0, 2(r5)
        next
xqdo:   cmp     (r5), 2(r5)             # does no turn at all if both are the same
        beq     1f;               jmp     xdo
1:      mov     (r4), r4;         cmp     (r5)+, (r5)+;     next
        colon   cr, "CR";                 .word   lit, 13, emit, lit, 10, emit, lit, 0, lit, cols, store, exit
        head    bl, "BL";         mov     $040, -(r5);      next
        colon   space, "SPACE";           .word   bl, emit, exit
        colon   spaces, "SPACES"
        .word   lit, 0, max, lit, 0, xqdo, 2f
1:      .word   space, xloop, 1b
2:      .word   exit
rub:    jsr     r4, *$docol             # ( address -- address ), takes a character back
        .word   lit, span, at, zbran, 1f, lit, -1, lit, span, plusst
        .word   lit, 8, emit, space, lit, 8, emit
1:      .word   exit
# ( address count -- address count ): the line before still lies where it was typed, but for what is typed over its
# beginning. Its rest is taken from there.
recall: jsr     r4, *$docol
1:      .word   over, tib_, equal, lit, span, at, lit, ntib, at, less, and, zbran, 2f
        .word   over, lit, span, at, plus, cat, emit, lit, 1, lit, span, plusst, bran, 1b
2:      .word   exit
# ( key -- key ): the arrow up, which is ESC A or ESC [ A, is Ctrl-R; other keys of that kind are nothing.
upward: jsr     r4, *$docol
        .word   dup, lit, 27, equal, zbran, 2f, drop, key, dup, lit, 0133, equal, over, lit, 0117, equal, or, zbran, 1f
        .word   drop, key
1:      .word   lit, 0101, equal, lit, 18, and
2:      .word   exit
        colon   expect, "EXPECT"        # ( address count -- )
        .word   lit, 0, lit, span, store
1:      .word   lit, span, at, over, less, zbran, 9f
        .word   key, upward, dup, lit, 10, equal, lit, before, at, lit, 13, equal, and, over, lit, before, store
        .word   zbran, 2f, drop, bran, 1b               # LF behind CR is no other line
2:      .word   dup, lit, 13, equal, over, lit, 10, equal, or, zbran, 3f, drop, bran, 9f
3:      .word   dup, lit, 8, equal, over, lit, 127, equal, or, zbran, 4f, drop, rub, bran, 1b
4:      .word   dup, lit, 21, equal, zbran, 6f, drop    # Ctrl-U: the whole line
5:      .word   lit, span, at, zbran, 1b, rub, bran, 5b
6:      .word   dup, lit, 18, equal, zbran, 7f, drop, recall, bran, 1b
7:      .word   dup, lit, 9, equal, zbran, 10f, drop, bl
10:     .word   dup, bl, uless, zbran, 8f, drop, bran, 1b
8:      .word   dup, emit, lit, 2, pick, lit, span, at, plus, cstore, lit, 1, lit, span, plusst, bran, 1b
9:      .word   ddrop, space, exit
        colon   query, "QUERY"
        .word   tib_, lit, 255, expect, lit, span, at, ntib_, store
        .word   lit, 0, dup, inat_, store, blk_, store, exit

# Numbers to text, from the last digit to the first, in the task's own place.
        head    base, "BASE"
        jsr     pc, *$douser
        .word   u_base
hld:    jsr     pc, *$douser
        .word   u_hld
hldend: jsr     pc, *$douser
        .word   u_end
        colon   decimal, "DECIMAL";       .word   lit, 10, base, store, exit
        colon   hex, "HEX";               .word   lit, 16, base, store, exit
        colon   octal, "OCTAL";           .word   lit, 8, base, store, exit
        colon   lsharp, "<#"
        .word   hldend, hld, store, exit
        head    hold, "HOLD"
        mov     u_hld(r3), r0;    mov     r3, r1;           add     $u_hld+2, r1
        cmp     r0, r1;           blos    1f;               movb    (r5), -(r0)
        mov     r0, u_hld(r3);    tst     (r5)+;            next
1:      mov     $toolong, r4;     next
toolong:fails   "too long"
        colon   sharp, "#"
        .word   base, at, mumod, rot, lit, 9, over, less, zbran, 1f, lit, 7, plus
1:      .word   lit, 060, plus, hold, exit
        colon   sharps, "#S"
1:      .word   sharp, ddup, dzeq, zbran, 1b, exit
        colon   sign, "SIGN"
        .word   zless, zbran, 1f, lit, 055, hold
1:      .word   exit
        colon   sharpg, "#>"
        .word   ddrop, hld, at, hldend, over, minus, exit
dtext:  jsr     r4, *$docol             # ( d -- address count )
        .word   swap, over, dabs, lsharp, sharps, rot, sign, sharpg, exit
right:  jsr     r4, *$docol             # ( address count width -- )
        .word   over, minus, spaces, type, exit
        colon   ddotr, "D.R";             .word   tor, dtext, fromr, right, exit
        colon   ddot, "D.";               .word   dtext, type, space, exit
        colon   dotr, ".R";               .word   tor, stod, fromr, ddotr, exit
        colon   dot, ".";                 .word   stod, ddot, exit
        colon   udotr, "U.R";             .word   lit, 0, swap, ddotr, exit
        colon   udot, "U.";               .word   lit, 0, ddot, exit
        colon   qmark, "?";               .word   at, dot, exit
        colon   dots, ".S"
        .word   lit, 074, emit, depth, lit, 0, dotr, lit, 076, emit, space, depth
1:      .word   qdup, zbran, 2f, dup, pick, dot, onem, bran, 1b
2:      .word   exit

# Texts that are read: the line that was typed, or a block.
        var     tib_, "TIB", tib
        var     ntib_, "#TIB", ntib
        var     inat_, ">IN", inat
        var     blk_, "BLK", blk
        var     scr_, "SCR", scr
        var     span_, "SPAN", span
        var     state_, "STATE", state
        var     dpl_, "DPL", dpl
        var     context, "CONTEXT", contxt
        var     current, "CURRENT", currnt
        colon   here, "HERE";             .word   lit, dp, at, exit
        colon   pad, "PAD";               .word   here, lit, 260, plus, exit
source: jsr     r4, *$docol             # ( -- address count )
        .word   blk_, at, qdup, zbran, 1f, block, lit, 1024, exit
1:      .word   tib_, ntib_, at, exit
# ( character address count -- ): the text from >IN up to the character goes to HERE, with a count before it and a blank
# behind it. Such characters in front of it are passed first, unless 100000 is added to the character. A blank stands
# for all control characters.
parse:  mov     dp, r2;           clrb    (r2)+
        mov     (r5)+, r1               # R1 how many are left, R0 where
        mov     (r5)+, r0;        sub     inat, r1;         blos    6f
        add     inat, r0;         cmp     (r5), $040;       beq     3f
        tst     (r5);             bmi     2f
1:      cmpb    (r0), (r5);       bne     2f;               inc     r0
        sob     r1, 1b;           br      5f
2:      cmpb    (r0), (r5);       beq     4f;               jsr     pc, taken
        sob     r1, 2b;           br      5f
3:      cmpb    (r0), $040;       bhi     7f;               inc     r0
        sob     r1, 3b;           br      5f
7:      cmpb    (r0), $040;       blos    4f;               jsr     pc, taken
        sob     r1, 7b;           br      5f
4:      inc     r0                      # passes the delimiter
        dec     r1
5:      mov     r1, left
6:      movb    $040, (r2);       tst     (r5)+;            next
taken:  cmpb    *dp, $0377;       beq     1f;               movb    (r0)+, (r2)+
        incb    *dp;              rts     pc
1:      inc     r0;               rts     pc
        colon   word, "WORD"
        .word   source, dup, tor, lit, 0, lit, left, store, parse, fromr, lit, left, at, minus, inat_, store
        .word   here, exit
        .set    quote, 0100042          # a quotation mark, by which an empty text may end

# The dictionary.
        head    find, "FIND"            # ( address -- code 1 | code -1 | address 0 ), 1 if it is done at once
        mov     (r5), r0;         mov     $token, r1;       clr     r2
        bisb    (r0)+, r2;        beq     4f;               cmp     r2, $31
        blos    1f;               mov     $31, r2
1:      movb    r2, (r1)+
2:      movb    (r0)+, (r1);      cmpb    (r1), $'a;        blo     3f
        cmpb    (r1), $'z;        bhi     3f;               bicb    $040, (r1)
3:      inc     r1;               sob     r2, 2b;           mov     *contxt, r0
        jsr     pc, search;       bne     5f;               mov     forth, r0
        jsr     pc, search;       bne     5f
4:      clr     -(r5);            next
5:      mov     r0, (r5);         mov     $1, -(r5);        tstb    flags
        bmi     6f;               neg     (r5)
6:      next
search: tst     r0                      # from the header R0 on: its code in R0, or 0 and Z
1:      beq     5f
        mov     2(r0), r1               # the count and the first letter
        bic     $now+only, r1;    cmp     r1, token;        beq     3f
2:      mov     (r0), r0;         br      1b
3:      mov     r0, entry;        movb    2(r0), flags;     mov     $token+2, r1
        movb    token, r2;        add     $4, r0
4:      dec     r2;               beq     6f;               cmpb    (r0)+, (r1)+
        beq     4b;               mov     entry, r0;        br      2b
6:      inc     r0;               bic     $1, r0
5:      rts     pc
        head    convert, "CONVERT"      # ( ud address -- ud address )
        mov     (r5), r2
1:      inc     r2;               clr     r0;               bisb    (r2), r0
        cmp     r0, $'a;          blo     2f;               bic     $040, r0
2:      sub     $060, r0;         cmp     r0, $9;           blos    3f
        cmp     r0, $17                 # A
        blo     5f;               sub     $7, r0
3:      cmp     r0, u_base(r3);   bhis    5f;               mov     r0, -(sp)
        mov     2(r5), r1               # the high word by the base, and the low one, which has no sign
        mul     u_base(r3), r1;   mov     r1, -(sp);        mov     4(r5), r0
        mul     u_base(r3), r0;   tst     4(r5);            bpl     4f
        add     u_base(r3), r0
4:      add     (sp)+, r0;        add     (sp)+, r1;        adc     r0
        mov     r1, 4(r5);        mov     r0, 2(r5);        inc     digits
        tst     dpl;              bmi     1b;               inc     dpl
        br      1b
5:      mov     r2, (r5);         next
number: jsr     r4, *$docol             # ( address -- d true | false )
        .word   lit, -1, lit, dpl, store, lit, 0, lit, digits, store
        .word   dup, count, plus, tor, lit, 0, dup, rot, dup, onep, cat, lit, 055, equal, dup, tor, minus
1:      .word   convert, dup, cat, lit, 056, equal, zbran, 2f, lit, 0, lit, dpl, store, bran, 1b
2:      .word   fromr, swap, fromr, equal, lit, digits, at, zeq, not, and, zbran, 4f
        .word   zbran, 3f, dnegate
3:      .word   lit, -1, exit
4:      .word   ddrop, drop, lit, 0, exit
        colon   allot, "ALLOT"
        .word   here, plus, dup, lit, newest, at, lit, top, at, lit, -512, plus, within, zbran, 1f
        .word   lit, dp, store, exit
1:      fails   "dictionary full"
        colon   comma, ",";               .word   here, store, lit, 2, allot, exit
        colon   ccomma, "C\054";          .word   here, cstore, lit, 1, allot, exit
        colon   align, "ALIGN";           .word   here, lit, 1, and, allot, exit
named:  jsr     r4, *$docol             # ( -- address ), of the name that follows
        .word   bl, word, dup, cat, zbran, 1f, exit
1:      fails   "wants a name"
        colon   tick_, "'";               .word   named, find, zbran, unknown, exit
unknown:.word   drop, keep
        fails   "undefined"
        colon   btick, "[']", now+only;   .word   tick_, literal, exit
        colon   tobody, ">BODY";          .word   lit, 4, plus, exit
        colon   create, "CREATE"
        .word   align, named, find, ddrop, inlist, zbran, 1f, here, count, type
        say     " redefined "
1:      .word   lit, 64, allot, lit, -64, allot, header, exit
inlist: mov     *currnt, r0;      clr     -(r5);            jsr     pc, search
        beq     1f;               com     (r5)
1:      next
header: mov     dp, r0                  # of the name in TOKEN, with the code of a variable; it is linked last
        mov     r0, -(sp);        mov     *currnt, (r0)+;   mov     $token, r1
        movb    (r1), r2;         inc     r2
1:      movb    (r1)+, (r0)+;     sob     r2, 1b;           inc     r0
        bic     $1, r0;           mov     r0, newest;       mov     $04737, (r0)+
        mov     $dovar, (r0)+;    mov     r0, dp;           mov     (sp)+, *currnt
        next
        colon   constant, "CONSTANT";     .word   create, lit, docon, lit, newest, at, lit, 2, plus, store, comma, exit
        colon   variable, "VARIABLE";     .word   create, lit, 0, comma, exit
        colon   dvariable, "2VARIABLE";   .word   create, lit, 0, dup, comma, comma, exit
        colon   dconstant, "2CONSTANT"
        .word   create, comma, comma, xdoes
        jsr     r4, *$dodoes
        .word   dat, exit
        colon   vocab, "VOCABULARY"
        .word   create, here, lit, 0, comma, lit, vocs, at, comma, lit, vocs, store, xdoes
        jsr     r4, *$dodoes
        .word   context, store, exit
        colon   forth_, "FORTH";          .word   lit, forth, context, store, exit
        colon   definit, "DEFINITIONS";   .word   context, at, current, store, exit
        colon   forget, "FORGET"
        .word   named, find, zbran, unknown, drop, lit, entry, at, dup, lit, 040000, uless, not, zbran, 1f
        .word   trim, exit
1:      fails   "protected"
trim:   mov     (r5)+, r0               # drops all words, vocabularies and tasks from an address on
        mov     r0, dp;           mov     r0, newest;       mov     vocs, r1
1:      cmp     r1, r0;           blo     2f;               mov     2(r1), r1
        br      1b
2:      mov     r1, vocs
3:      cmp     (r1), r0;         blo     4f;               mov     *(r1), (r1)
        br      3b
4:      mov     2(r1), r1;        bne     3b;               cmp     contxt, r0
        blo     5f;               mov     $forth, contxt
5:      cmp     currnt, r0;       blo     6f;               mov     $forth, currnt
6:      mov     $main, r1
7:      mov     (r1), r2;         cmp     r2, r0;           blo     8f
        mov     (r2), (r1);       br      7b
8:      mov     r2, r1;           cmp     r1, $main;        bne     7b
        jsr     pc, census;       next
title:  jsr     r4, *$docol             # ( header -- address count )
        .word   twop, count, lit, 037, and, exit
        colon   words, "WORDS"
        .word   cr, lit, 0, lit, cols, store, context, at, at
1:      .word   qdup, zbran, 3f, dup, title, lit, cols, at, over, plus, lit, 70, less, not, zbran, 2f, cr
2:      .word   type, space, at, bran, 1b
3:      .word   exit

# The compiler. What is open is on the stack with a number: 1 BEGIN, 2 IF or ELSE, 3 DO, 4 WHILE.
        colon   lbrack, "[", now;         .word   lit, 0, state_, store, exit
        colon   rbrack, "]";              .word   lit, -1, state_, store, exit
        colon   literal, "LITERAL", now+only; .word   compile, lit, comma, exit
        colon   dliteral, "DLITERAL", now+only; .word   swap, literal, literal, exit
        head    compile, "COMPILE", only
        mov     (r4)+, -(r5);     jmp     comma
        colon   bcomp, "[COMPILE]", now+only; .word   tick_, comma, exit
        colon   immedi, "IMMEDIATE";      .word   current, at, at, twop, dup, cat, lit, now, or, swap, cstore, exit
hide:   jsr     r4, *$docol
        .word   current, at, at, twop, dup, cat, lit, hidden, xor, swap, cstore, exit
        colon   colon_, ":"
        .word   create, lit, 04437, lit, newest, at, store, lit, docol, lit, newest, at, twop, store
        .word   hide, spat, lit, csp, store, rbrack, exit
        colon   semi, ";", now+only
        .word   spat, lit, csp, at, differ, zbran, 1f
        fails   "unpaired"
1:      .word   compile, exit, hide, lbrack, exit
        colon   recurse, "RECURSE", now+only; .word   lit, newest, at, comma, exit
        head    xdoes, "(DOES)", only
        mov     newest, r0;       mov     r4, 2(r0);        jmp     exit
        colon   does, "DOES>", now+only;  .word   compile, xdoes, lit, 04437, comma, lit, dodoes, comma, exit
pairs:  jsr     r4, *$docol             # ( number number -- ), which have to be there and the same
        .word   spat, twop, lit, csp, at, uless, zbran, 2f, differ, zbran, 1f
2:      fails   "unpaired"
1:      .word   exit
ahead:  jsr     r4, *$docol             # ( -- address ), of a branch whose end comes
        .word   here, lit, 0, comma, exit
behind: jsr     r4, *$docol             # ( address -- ), which is here
        .word   here, swap, store, exit
        colon   if, "IF", now+only;       .word   compile, zbran, ahead, lit, 2, exit
        colon   else, "ELSE", now+only;   .word   lit, 2, pairs, compile, bran, ahead, swap, behind, lit, 2, exit
        colon   then, "THEN", now+only;   .word   lit, 2, pairs, behind, exit
        colon   begin, "BEGIN", now+only; .word   here, lit, 1, exit
        colon   until, "UNTIL", now+only; .word   lit, 1, pairs, compile, zbran, comma, exit
        colon   again, "AGAIN", now+only; .word   lit, 1, pairs, compile, bran, comma, exit
        colon   while, "WHILE", now+only; .word   if, twop, exit
        colon   repeat, "REPEAT", now+only; .word   tor, tor, again, fromr, fromr, twom, then, exit
        colon   do, "DO", now+only;       .word   compile, xdo, ahead, lit, 3, exit
        colon   qdo, "?DO", now+only;     .word   compile, xqdo, ahead, lit, 3, exit
        colon   loop, "LOOP", now+only;   .word   lit, 3, pairs, compile, xloop, dup, twop, comma, behind, exit
        colon   ploop, "+LOOP", now+only; .word   lit, 3, pairs, compile, xploop, dup, twop, comma, behind, exit

# Texts in programs.
        colon   paren, "(", now;          .word   lit, 0100051, word, drop, exit
        colon   bslash, "\\", now
        .word   blk_, at, zbran, 1f, inat_, at, lit, 63, plus, lit, -64, and, inat_, store, exit
1:      .word   ntib_, at, inat_, store, exit
        colon   dotparen, ".(", now;      .word   lit, 0100051, word, count, type, exit
string: jsr     r4, *$docol             # a text, up to the quotation mark, goes into the dictionary
        .word   lit, quote, word, cat, twop, lit, -2, and, allot, exit
        colon   dotq, ".\042", now;       .word   state_, at, zbran, 1f, compile, xstr, string, compile, type, exit
1:      .word   lit, quote, word, count, type, exit
        colon   squote, "S\042", now;     .word   state_, at, zbran, 1f, compile, xstr, string, exit
1:      .word   lit, quote, word, count, lit, 80, min, tor, pad, rat, cmove, pad, fromr, exit
        colon   abortq, "ABORT\042", now+only; .word   compile, xabort, string, exit
xabort: tst     (r5)+;            bne     fail;             movb    (r4)+, r0
        bic     $0177400, r0;     add     r0, r4;           inc     r4
        bic     $1, r4;           next
        colon   ascii, "ASCII", now
        .word   bl, word, onep, cat, state_, at, zbran, 1f, literal
1:      .word   exit

# What goes wrong: the word that was being done, and why.
fail:   jsr     r4, *$docol             # the message follows
        .word   fromr, count, lit, 0, wrong
wrong:  jsr     r4, *$docol             # ( message count address -- ), of the code that was trapped, or 0
        .word   ismain, zbran, 4f, tor, lit, failed, count, type
        say     " ? "
        .word   type, fromr, inside, blk_, at, qdup, zbran, 1f
        say     ", block "
        .word   lit, 0, dotr
        say     " line "
        .word   inat_, at, lit, -1, plus, lit, 64, slash, lit, 0, dotr, forth_, definit
1:      .word   abort
4:      .word   drop
        say     " A task stops: "
        .word   type, cr, stop_
ismain: clr     -(r5);            cmp     r3, $main;        bne     1f
        com     (r5)
1:      next
inside: jsr     r4, *$docol             # says in which word code is, if one of the user's was being done
        .word   dup, here, ugrtr, not, and, lit, forth
1:      .word   at, ddup, uless, zbran, 2f, bran, 1b
2:      .word   nip, dup, zbran, 4f, lit, doing, at, lit, 040000, uless, not, zbran, 4f
        say     " in "
        .word   title, type, exit
4:      .word   drop, exit
trapped:.word   swap, tor, count, fromr, wrong
broken: .word   ddrop
        say     " break"
        .word   abort
keep:   mov     dp, r0;           mov     $failed, r1;      movb    (r0), r2
        bic     $0177740, r2;     inc     r2
1:      movb    (r0)+, (r1)+;     sob     r2, 1b;           next
        head    abort, "ABORT";   cmp     r3, $main;        bne     stop1;            mov     u_s0(r3), r5
                                  mov     $quitcr, r4;      next
        head    quit, "QUIT"
        cmp     r3, $main;        bne     stop1;            mov     $quits, r4
        next
stop1:  jmp     stop_
quitcr: .word   cr
quits:  .word   empty, lit, 0, dup, state_, store, blk_, store
        .word   current, at, at, dup, twop, cat, lit, hidden, and, zbran, 1f
        .word   dup, dup, lit, dp, store, lit, newest, store    # a definition that wasn't ended goes
        .word   at, current, at, store, bran, 2f
1:      .word   drop
2:      .word   query, interp, state_, at, zbran, 3f
        say     " compiled"
        .word   cr, bran, 2b
3:      say     " ok"
        .word   cr, bran, 2b
empty:  mov     u_r0(r3), sp;     next

# The interpreter: each word is done or compiled, and what isn't one is a number or a mistake.
        colon   interp, "INTERPRET"
1:      .word   bl, word, cat, zbran, 8f, keep, here, find, qdup, zbran, 5f, state_, at, zbran, 3f
        .word   zless, zbran, 2f, comma, bran, 1b
2:      .word   dup, lit, doing, store, execute, depth, zless, zbran, 1b
        fails   "stack empty"
3:      .word   drop, lit, flags, cat, lit, only, and, zbran, 2b
        fails   "only in a definition"
5:      .word   number, zbran, 7f, dpl_, at, zless, zbran, 6f, drop, state_, at, zbran, 1b, literal, bran, 1b
6:      .word   state_, at, zbran, 1b, dliteral, bran, 1b
7:      fails   "undefined"
8:      .word   exit
        colon   load, "LOAD"
        .word   blk_, at, tor, inat_, at, tor, dup, zbran, 1f, blk_, store, lit, 0, inat_, store, interp
        .word   fromr, inat_, store, fromr, blk_, store, exit
1:      fails   "no such block"
        colon   thru, "THRU"
        .word   onep, swap, xqdo, 2f
1:      .word   i, load, xloop, 1b
2:      .word   exit
        colon   arrow, "-->", now;        .word   lit, 1, blk_, plusst, lit, 0, inat_, store, exit

# Blocks: two sectors each, from sector 32 of a drive on; 2,400 of them on a drive, or fewer on the menu's.
disk:   mov     (r5)+, r2               # ( address block function -- errors )
        mov     (r5)+, r1;        clr     r0;               div     $room, r0
        ash     $13, r0                 # the drive
        asl     r1;               mov     r0, -(sp);        bne     4f
        add     behind0, r1
4:      add     $image, r1;       clr     r0;               div     $12, r0
        ash     $4, r0                  # cylinder and surface
        add     r1, r0;           add     (sp)+, r0;        mov     $rkcs, r1
1:      tstb    (r1);             bpl     1b;               mov     r0, *$rkda
        mov     (r5), *$rkda-2;   mov     $-512, *$rkda-4;  mov     r2, (r1)
2:      tstb    (r1);             bpl     2b;               clr     (r5)
        tst     (r1);             bpl     3f;               mov     *$rker, (r5)
        mov     $1, (r1)                # control reset
3:      next
done:   jsr     r4, *$docol             # ( errors -- )
        .word   qdup, zbran, 3f, dup, lit, 020000, and, zbran, 1f
        fails   "the pack is protected"
1:      .word   lit, 0200, and, zbran, 2f
        fails   "no pack"
2:      fails   "disk error"
3:      .word   exit
slot:   mov     $bufs, r0               # ( block -- address true | block false )
        mov     $bufmem, r1
1:      mov     (r0), r2;         bic     $0100000, r2;     cmp     r2, (r5)
        beq     2f;               add     $1024, r1;        tst     (r0)+
        cmp     r0, $bufs+8;      blo     1b;               clr     -(r5)
        next
2:      mov     r0, spot;         mov     r1, (r5);         mov     $-1, -(r5)
        next
place:  jsr     r4, *$docol             # ( -- address ), of the buffer at SPOT
        .word   lit, spot, at, lit, bufs, minus, lit, 9, shift, lit, bufmem, plus, exit
shift:  mov     (r5)+, r0;        mov     (r5), r1;         ash     r0, r1
        mov     r1, (r5);         next
tidy:   jsr     r4, *$docol             # writes the buffer at SPOT, if it was changed
        .word   lit, spot, at, at, zless, zbran, 1f, place, lit, spot, at, at, lit, 077777, and, lit, 3, disk, done
        .word   lit, spot, at, dup, at, lit, 077777, and, swap, store
1:      .word   exit
spare:  jsr     r4, *$docol             # ( -- address ), of a buffer that was made empty
        .word   lit, victim, at, twop, lit, 6, and, dup, lit, victim, store, lit, bufs, plus, lit, spot, store
        .word   tidy, lit, none, lit, spot, at, store, place, exit
known:  jsr     r4, *$docol             # ( block -- block )
        .word   dup, lit, room, uless, zbran, 1f, dup, lit, room0, at, uless, zbran, 2f, exit
1:      .word   dup, lit, room * drives, uless, zbran, 2f, exit
2:      fails   "no such block"
        colon   buffer, "BUFFER"
        .word   known, slot, not, zbran, 1f, spare, swap, lit, spot, at, store
1:      .word   exit
        colon   block, "BLOCK"
        .word   known, slot, not, zbran, 1f, spare, ddup, swap, lit, 5, disk, done, swap, lit, spot, at, store
1:      .word   exit
        colon   update, "UPDATE"
        .word   lit, spot, at, at, lit, none, equal, not, zbran, 1f
        .word   lit, spot, at, dup, at, lit, 0100000, or, swap, store
1:      .word   exit
        colon   savebuf, "SAVE-BUFFERS"
        .word   lit, spot, at, lit, bufs+8, lit, bufs, xdo, 2f
1:      .word   i, lit, spot, store, tidy, lit, 2, xploop, 1b
2:      .word   lit, spot, store, exit
        colon   emptyb, "EMPTY-BUFFERS"
        .word   lit, bufs+8, lit, bufs, xdo, 2f
1:      .word   lit, none, i, store, lit, 2, xploop, 1b
2:      .word   exit
        colon   flush, "FLUSH";           .word   savebuf, emptyb, exit
        colon   list, "LIST"
        .word   dup, scr_, store, cr
        say     "Block "
        .word   dup, dot, lit, 16, lit, 0, xdo, 2f
1:      .word   cr, i, lit, 2, dotr, space, dup, block, i, lit, 64, times, plus, lit, 64, dtrail, type, xloop, 1b
2:      .word   drop, cr, exit

# Tasks and the clock.
        colon   task, "TASK";             .word   create, here, lit, 320, allot, newtask, exit
newtask:mov     (r5)+, r0
        mov     main, (r0);       mov     r0, main;         clr     u_awake(r0)
        mov     $10, u_base(r0);  mov     r0, r1;           add     $u_end, r1
        mov     r1, u_hld(r0)
        add     $128, r1                # 64 words for each stack
        mov     r1, u_s0(r0);     add     $126, r1
        mov     $ends, (r1)             # where its last EXIT goes
        mov     r1, u_r0(r0);     next
ends:   .word   stop_
        head    activate, "ACTIVATE", only      # the task does what follows, the caller doesn't
        mov     (r5)+, r0;        mov     u_r0(r0), r1;     mov     $docol, -(r1)
        mov     r4, -(r1);        mov     u_s0(r0), -(r1);  mov     r1, u_sp(r0)
        mov     $1, u_awake(r0);  jsr     pc, census;       jmp     exit
        head    stop_, "STOP"
        cmp     r3, $main;        beq     1f;               clr     u_awake(r3)
        jsr     pc, census;       jsr     pc, switch;       next
1:      mov     $nostop, r4;      next
nostop: fails   "for tasks"
        head    ticks_, "TICKS";  mov     ticks, -(r5);     next
        colon   ms, "MS"                # the line's 60 ticks a second, and at least one
        .word   lit, 60, lit, 1000, ssl, onep, ticks_
1:      .word   ddup, ticks_, swap, minus, ugrtr, zbran, 2f, wait_, bran, 1b
2:      .word   ddrop, exit
wait_:  jsr     pc, relax;        next

# The beginning and the end.
hello:  say     "\r\nFORTH-83 for the PDP-11/40: "
        .word   lit, memory, at, lit, -11, shift, lit, 037, and, dot
        say     "K words of memory, "
        .word   lit, top, at, here, minus, udot
        say     "bytes free."
        .word   lit, 1, load
        say     " ok"
        .word   cr, quit
        colon   unused, "UNUSED";         .word   lit, top, at, here, minus, exit
        colon   forth83, "FORTH-83";      .word   exit
        colon   bye, "BYE"
        .word   flush, halt_, abort
halt_:  cmp     outhead, outtail        # once all is typed
        beq     1f;               jsr     pc, relax;        br      halt_
1:      tstb    *$xcsr;           bpl     1b;               tst     behind0
        bne     2f;               halt
        next
2:      mov     $0340, *$ps             # back to the menu, which is in the pack's first sectors
        clr     *$rcsr;           clr     *$xcsr;           clr     *$lks
        clr     *$sr0;            mov     $rkda, r0;        clr     (r0)
        clr     -(r0);            mov     $-256, -(r0);     mov     $5, -(r0)
3:      tstb    (r0);             bpl     3b;               tst     (r0)
        bmi     4f;               clr     pc
4:      halt                            # the pack can't be read
        br      2b
        .set    last, link
        . = start + 040000
