"""Planted crashes for tests/why: a name, lines before the program, the program, lines behind its start, and what is to be
said, in this order. The addresses were worked out by hand from the program, which begins at 1000."""

HANDLER = "deposit 4 2000 340\ndeposit 250 2002 340\ndeposit 2000 0 0\nset 6 1000\n"
# mapping: the kernel's page 0 where it lies, and page 7 the I/O page
PAGES = "deposit 772300 77406\ndeposit 772340 0\ndeposit 772316 77406\ndeposit 772356 7600\n"
RUN = "continue 100000\n"

CRASHES = [
    ("a wild jump", "set 6 1000\n", "MOV #160000,R0\nJMP (R0)", RUN,
     ["It halted: HALT at 000000, in turn 4.", "the fetch of an instruction at 160000 reads 160000, where nothing answers",
      "through vector 4", "Vector 4 is 000000 000000: nothing has set it.", "In turn 2 JMP (R0) at 001004 went to 160000."]),
    ("a stack that ran over", HANDLER, "MORE: JSR PC,MORE", RUN,
     ["HALT at 002000", "JSR PC,1000 at 001000 took the kernel's stack pointer to 000376, below the stack limit"]),
    ("a stack in the red zone", HANDLER.replace("6 1000", "6 340"), "JSR PC,A\nA: NOP", RUN,
     ["HALT at 002000", "JSR PC,1004 at 001000 took the kernel's stack pointer to 000336, into the red zone below the stack",
      "the fatal service came"]),
    ("an overwritten vector", "deposit 100 2000 300\ndeposit 2000 2\nset 6 1000\n",
     "MOV #200,R0\nMOV #100,@#177546\nA: MOV #3001,-(R0)\nCMP R0,#70\nBNE A\nBR .", "clock 40\n" + RUN,
     ["HALT at 000000", "the fetch of an instruction at 003001 reads a word at 003001, which is odd",
      "an interrupt of the clock came", "vector 100 sent it to 003001",
      "was the last to change vector 100, which was 003001 003001: "
      "MOV #3001,-(R0) at 001012 wrote 003001 there"]),
    ("a page abort", HANDLER, "INC @#177572\nCLR @#40000", PAGES + RUN,
     ["HALT at 002002", "CLR @#40000 at 001004 writes 040000: page 2 in kernel mode isn't resident; ",
      "the trap went through vector 250"]),
    ("a push into a page that isn't there", HANDLER.replace("6 1000", "6 40000"), "INC @#177572\nJSR PC,A\nA: NOP",
     PAGES + RUN,
     ["HALT at 002000", "JSR PC,1010 at 001004 writes 037776: page 1 in kernel mode isn't resident",
      "so the fatal service came, by vector 4", "No turn changed vector 4, which was 002000 000340."]),
    ("a stack pointer that is odd", HANDLER.replace("6 1000", "6 1001"), "MOV #5,-(SP)", RUN,
     ["HALT at 002000", "MOV #5,-(SP) at 001000 writes a word at 000777, which is odd", "the fatal service came"]),
    ("a device that never answers", "set 6 1000\n", "A: TSTB @#177560\nBPL A\nHALT", "step 1000\n",
     ["It didn't stop: the last run made its 1000 turns, and PC is 001000.", "a loop of 2 instructions, from 001000 to 001004",
      "It reads 777560 (RCSR), and gets 000000 each time."]),
    ("a device that isn't there", "set 6 1000\n", "TST @#177440", RUN,
     ["HALT at 000000", "TST @#177440 at 001000 reads 177440, where nothing answers", "nothing has set it"]),
    ("a reserved instruction", "set 6 1000\n", "NOP\n.WORD 7", RUN,
     ["HALT at 000000", ".WORD 7 at 001002 is a reserved instruction; the trap went through vector 10"]),
    ("a return address that was overwritten", "set 6 1000\n", "JSR PC,A\nHALT\nA: MOV #666,(SP)\nRTS PC", RUN,
     ["HALT at 000666", "RTS PC at 001012 went to 000666",
      "was the last to change the word at 000776, which it took as the address: MOV #666,(SP) at 001006 wrote 000666 there"]),
    ("a stack that was never set", "", "JSR PC,A\nHALT\nA: INC R0\nRTS PC", RUN,
     ["HALT at 000000", "RTS PC at 001010 went to 000000", "the word at 177776 (the status word), which it took as the address:",
      "no instruction wrote it, so the machine itself did, while INC R0 was at 001006"]),
    ("a vector that sends each trap to the next one", "set 6 1000\n", "MOV #160000,@#4\nNOP\nTST @#160000\nHALT", "continue 30000\n",
     ["It didn't stop: the last run made its 30000 turns, and PC is 160000.", "Nothing but traps came from turn 3 on.",
      "the fetch of an instruction at 160000 reads 160000", "Turn 1 was the last to change vector 4, which was 160000 000000: "
      "MOV #160000,@#4 at 001000 wrote 160000 there."]),
    ("a wait for nothing", "set 6 1000\n", "MOV #340,@#177776\nWAIT\nHALT", RUN,
     ["It idles: it waits behind WAIT at 001006", "No device has its interrupt enabled.", "The processor's priority is 7."]),
    ("a trap instruction without a handler", "set 6 1000\n", "EMT 17", RUN,
     ["HALT at 000000", "EMT 17 at 001000 is a trap instruction; the trap went through vector 30 (EMT) to 000000",
      "Vector 30 is 000000 000000: nothing has set it."]),
    ("a user program that writes where it may only read", HANDLER,
     "INC @#177572\nMOV #140000,-(SP)\nMOV #3000,-(SP)\nRTI\n.=3000\nCLR @#3000",
     PAGES + "deposit 777600 77402\ndeposit 777640 0\n" + RUN,
     ["HALT at 002002", "CLR @#3000 at 003000 writes 003000: page 0 in user mode is read only; ",
      "the trap went through vector 250"]),
]

# a name, options, lines and a program as above, what is said, and the exit status
LOOP = "CLR R1\nA: INC R1\nCMP R1,#5\nBNE B\nMOV R1,@#500\nB: CMP R1,#100\nBNE A\nHALT"
UNDONE = "INC @#500\nDEC @#500\nMOV #60000,R1\nA: NOP\nSOB R1,A\nHALT"
COUNT = "MOV #200.,R0\nA: SOB R0,A\nHALT"
FOUND = [
    ("who wrote", ["--wrote", "500"], "", LOOP, RUN,
     ["was the last to change the word at 000500: MOV R1,@#500 at 001012 wrote 000005 there."], 0),
    ("nobody wrote", ["--wrote", "502"], "", LOOP, RUN, ["No turn changed the word at 000502."], 1),
    ("the disk wrote", ["--wrote", "4000"], "mount 0 /dev/null rw\ndeposit 4000 7\n",
     "MOV #-400,@#177406\nMOV #4000,@#177410\nMOV #5,@#177404\nA: TSTB @#177404\nBPL A\nHALT", RUN,
     ["was the last to change the word at 004000: no instruction wrote it, so the disk did"], 0),
    ("the script wrote", ["--wrote", "500"], "", "A: INC R1\nBR A", "step 9\ndeposit 500 7\nstep 9\n",
     ["Line 4 of the script, behind turn 9, was the last to change the word at 000500: deposit 500 7."], 0),
    ("when PC was", ["--pc", "1012"], "", LOOP, RUN, ["PC was 001012 first behind turn 24."], 0),
    ("when PC wasn't", ["--pc", "7000"], "", LOOP, RUN, ["PC was never 007000."], 1),
    ("when a word was", ["--word", "500", "5"], "", LOOP, RUN, ["The word at 000500 was 000005 first behind turn 25."], 0),
    ("who undid a change, 49,155 turns ago", ["--wrote", "500"], "", UNDONE, RUN,
     ["Turn 2 was the last to change the word at 000500: DEC @#500 at 001004 wrote 000000 there."], 0),
    ("when a word was for one turn", ["--word", "500", "1"], "", UNDONE, RUN,
     ["The word at 000500 was 000001 first behind turn 1."], 0),
    ("who pressed a key", ["--wrote", "777562"], "", COUNT, "key AB\n" + RUN,
     ["Turn 1 was the last to change the word at 777562: no instruction wrote it, so the machine itself did"], 0),
    ("a key that nobody takes", ["--word", "777562", "102"], "", COUNT, "key AB\n" + RUN,
     ["The word at 777562 was never 000102."], 1),
    ("a word that isn't there", ["--wrote", "777700"], "", COUNT, RUN, ["why: nothing answers at 777700"], 1),
    ("a long way since the last jump", [], "", COUNT, RUN,
     ["HALT at 001006, in turn 202.", "No trap, interrupt or jump came in the last 64 turns; -n shows more of them."], 0),
    ("a vector that was set long ago", [], "deposit 2002 0\n", "MOV #2002,@#34\nCLR R1\nA: NOP\nSOB R1,A\nTRAP",
     "continue 200000\n", ["HALT at 002002", "the trap went through vector 34 (TRAP) to 002002.",
                           "No turn of the 100000 before changed vector 34, which was 002002 000000; --wrote 34 looks"], 0),
]
