"""The requests of soak/simh: an interrupt that the priority holds off, whose cause goes before the priority falls.

A request that is pending stays when its cause goes, so the interrupt comes; SIMH drops it. One case for each cause. A module
for soak/simh; it isn't run by itself.
"""
import os
import tempfile

import simh_talk as talk

RULE = "a request that is pending stays when its cause goes, so its interrupt comes; SIMH drops the request"
# what goes, the vector, and the words that raise the request and then take its cause away, at priority 7
CASES = [
    ("XBUF is written", 0o64, "12737 100 177564 12737 101 177566"),
    ("GO is written", 0o220, "12737 100 177404 12737 105 177404"),
    ("the monitor bit is cleared", 0o100, "12737 300 177546 12737 100 177546"),
]
# CLR @#177776; three NOPs; HALT
LOWERED = "5037 177776 240 240 240 0"
HANDLED = "002002"


def words_of(case):
    return f"{case[2]} {LOWERED}".split()


def for_p11(case):
    yield "start 1000"
    yield f"deposit 1000 {' '.join(words_of(case))}"
    yield f"deposit {case[1]:o} 2000 340"
    yield "set 6 700"
    yield "set 11 340"
    yield "step 40"
    yield "regs"


def for_simh(case):
    yield "reset all"
    for index, word in enumerate(words_of(case)):
        yield f"d {0o1000 + 2 * index:o} {word}"
    yield from (f"d {case[1]:o} 2000", f"d {case[1] + 2:o} 340", "d 2000 0", "d ksp 700", "d psw 340", "d pc 1000")
    yield "step 40"
    yield "e " + ",".join(talk.REGISTERS).lower()


def compare(program, simh):
    """Says which of the cases end otherwise in SIMH. How many don't follow the rule."""
    with tempfile.TemporaryDirectory() as folder:
        pack = os.path.join(folder, "pack")
        with open(pack, "wb") as file:
            file.truncate(203 * 2 * 12 * 512)
        script = [f"mount 0 {pack} rw", *(line for case in CASES for line in for_p11(case))]
        ours = talk.outcomes_of_p11(talk.answers_of(program, script))
        script = [*talk.BEGIN, f"attach rk0 {pack}", *(line for case in CASES for line in for_simh(case)), "quit"]
        theirs = talk.outcomes_of_simh(talk.answers_of(simh, script))
    wrong = 0
    print(f"soak/simh: {RULE}:")
    for case, one, other in zip(CASES, ours, theirs):
        comes = one["PC"] == HANDLED
        wrong += not comes
        print(f"  {case[0]}: the interrupt {'comes' if comes else 'DOES NOT COME'}, in SIMH it "
              f"{'comes too' if other['PC'] == HANDLED else 'is dropped'}")
    return wrong + (len(ours) != len(CASES) or len(theirs) != len(CASES))
