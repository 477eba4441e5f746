"""The devices of soak/simh: functions of the disk controller, and bytes of the console line.

Each function of the RK11 is begun by a program, which waits for it by polling or by its interrupt; then the
controller's registers, the words behind RKBA and at the end the whole packs are compared. Delays aren't, as each
machine has its own, nor what hangs on them: RKDS, and the end of a search in RKCS.
"""
import collections
import os
import random
import re
import tempfile

import simh_talk as talk

WORDS, BUFFER, PACK = 300, 0o10000, 203 * 2 * 12 * 512
REGISTERS = ["777402", "777404", "777406", "777410", "777412"]
# name, rule, and whether it explains the fields in which a function's outcomes differ
KNOWN = [
    ("control reset", "it clears all registers; SIMH leaves RKWC",
     lambda one, ours, theirs, fields: one.function == 0 and fields == ["777406"]),
    ("format", "the format bit is a programming error; SIMH reads headers with it",
     lambda one, ours, theirs, fields: one.control & 0o2000 and ours["777402"] == "004000"),
    ("no disk", "a drive without a pack is no disk; for SIMH it is a drive error",
     lambda one, ours, theirs, fields: fields == ["777402"] and (ours["777402"], theirs["777402"])
     == ("000200", "100000")),
    ("read check", "it touches no memory and leaves RKBA; SIMH steps it",
     lambda one, ours, theirs, fields: one.function == 5 and fields == ["777410"]),
    ("write check with a difference", "the sector in which it was found is counted in RKWC, RKBA and RKDA where bit 8"
     " ends the function; SIMH ends before that",
     lambda one, ours, theirs, fields: one.function == 3 and one.control & 0o400 and ours["777402"] == "000001"
     and set(fields) <= {"777406", "777410", "777412"}),
]
# MOVB (R1)+,R0; BEQ to the last TSTB; TSTB @#177564; BPL back; MOVB R0,@#177566; BR to the first; TSTB; BPL; HALT
TYPER = "112100 1406 105737 177564 100375 110037 177566 770 105737 177564 100375 0"
# TSTB @#177560; BPL back; MOVB @#177562,R0; HALT
TAKER = "105737 177560 100375 113700 177562 0"


class Function:
    """One function of the controller, by random registers."""

    def __init__(self, pick):
        self.function = pick.choice([1, 1, 2, 2, 3, 5, 4, 6, 0])
        self.enable = pick.random() < 0.4 and self.function != 0
        other = pick.choice([0, 0, 0, 0o400, 0o4000, 0o2000 * (self.function != 1)])
        self.control = self.function * 2 + 1 + 0o100 * self.enable + other
        self.count = -pick.choice([1, 2, 255, 256, 257, WORDS, pick.randint(1, WORDS)]) % 65536
        cylinder = pick.choice([0, 1, 2, 3, 202, 203, 255, pick.randrange(203)])
        sector = pick.choice([0, 1, 11, 12, 15, pick.randrange(12)])
        self.place = cylinder * 32 + pick.randrange(2) * 16 + sector + pick.choice([0] * 9 + [0o20000])
        self.words = [pick.randrange(65536) for _ in range(WORDS)]

    def program(self):
        end = "1 776" if self.enable else "105737 177404 100375 0"
        return f"12737 {self.control:o} 177404 {end}"

    def for_p11(self):
        yield "start 1000"
        yield "set 6 700"
        yield f"deposit 1000 {self.program()}"
        yield "deposit 220 2000 340"
        for first in range(0, WORDS, 60):
            yield f"deposit {BUFFER + 2 * first:o} " + " ".join(f"{word:o}" for word in self.words[first:first + 60])
        for name, word in zip(REGISTERS[2:], (self.count, BUFFER, self.place)):
            yield f"deposit {name} {word:o}"
        yield "step 3000"
        yield "regs"
        yield "examine 777402 5"
        yield f"examine {BUFFER:o} {WORDS}"

    def for_simh(self):
        yield "reset all"
        for index, word in enumerate(self.program().split()):
            yield f"d {0o1000 + 2 * index:o} {word}"
        yield from ("d 220 2000", "d 222 340", "d 2000 0", "d psw 0", "d ksp 700", "d pc 1000")
        for index, word in enumerate(self.words):
            yield f"d {BUFFER + 2 * index:o} {word:o}"
        for name, word in zip(REGISTERS[2:], (self.count, BUFFER, self.place)):
            yield f"d 17{name} {word:o}"
        yield "step 3000"
        yield "e " + ",".join(talk.REGISTERS).lower()
        yield "e 17777402-17777412"
        yield f"e {BUFFER:o}-{BUFFER + 2 * WORDS - 2:o}"


def judged(function, ours, theirs):
    """What of a function's outcome differs and has to be the same."""
    theirs["777404"] = f"{int(theirs['777404'], 8) & ~0o20000:06o}"
    ours["777404"] = f"{int(ours['777404'], 8) & ~0o20000:06o}"
    return [name for name in ours if ours[name] != theirs.get(name)]


def disk(program, simh, seed, count=300):
    pick = random.Random(f"disk {seed}")
    functions = [Function(pick) for _ in range(count)]
    image = pick.randbytes(PACK)
    with tempfile.TemporaryDirectory() as folder:
        packs = [os.path.join(folder, name) for name in ("ours", "theirs", "saved")]
        for name in packs[:2]:
            with open(name, "wb") as file:
                file.write(image)
        script = [f"mount 0 {packs[0]} rw", *(line for one in functions for line in one.for_p11()),
                  f"save 0 {packs[2]}"]
        ours = talk.outcomes_of_p11(talk.answers_of(program + ["--memory", "124"], script))
        script = [*talk.BEGIN, f"attach rk0 {packs[1]}", *(line for one in functions for line in one.for_simh()),
                  "detach rk0", "quit"]
        theirs = talk.outcomes_of_simh(talk.answers_of(simh, script))
        with open(packs[1], "rb") as one, open(packs[2], "rb") as other:
            same = one.read() == other.read()
    wrong = tell(zip(functions, ours, theirs))
    print(f"soak/simh: the packs behind them are {'the same' if same else 'not the same'}")
    return wrong + (not same)


def tell(outcomes):
    """Says how many functions differ by which rule, and which by none; how many those are."""
    found, wrong, count = collections.Counter(), 0, 0
    for function, ours, theirs in outcomes:
        count += 1
        fields = judged(function, ours, theirs)
        name = next((name for name, _, explains in KNOWN if fields and explains(function, ours, theirs, fields)), "")
        found[name] += not fields or name != ""
        if fields and not name:
            wrong += 1
            print(f"soak/simh: function {function.function} by RKCS {function.control:06o}, RKWC {function.count:06o}, "
                  f"RKDA {function.place:06o}, and no rule is known for the difference:")
            for field in fields[:8]:
                print(f"  {field}: p11 has {ours[field]}, SIMH {theirs.get(field)}")
    print(f"soak/simh: {count} functions of the RK11: {found['']} with no difference, {wrong} with one that isn't"
          " known, and these known ones:")
    for name, rule, _ in KNOWN:
        print(f"  {found[name]:6} {name}: {rule}")
    return wrong


def unescaped(text):
    return re.sub(r"\\([0-7]{3})", lambda match: chr(int(match[1], 8)), text)


def console(program, simh, seed):
    pick = random.Random(f"console {seed}")
    texts = ["<" + "".join(chr(pick.randrange(0x21, 0x7e)) for _ in range(40)) + ">" for _ in range(20)]
    keys = [pick.randrange(1, 128) for _ in range(20)]
    ours, theirs = [], list(talk.BEGIN)
    for text in texts:
        words = [f"{ord(first) + 256 * ord(second):o}" for first, second in zip(text[::2], text[1::2])] + ["0"]
        ours += [f"deposit 2000 {' '.join(words)}", f"deposit 1000 {TYPER}", "start 1000", "set 1 2000", "step 9000"]
        theirs += ["reset all", *(f"d {0o2000 + 2 * i:o} {word}" for i, word in enumerate(words)),
                   *(f"d {0o1000 + 2 * i:o} {word}" for i, word in enumerate(TYPER.split())),
                   "d r1 2000", "d pc 1000", "step 90000"]
    for key in keys:
        ours += [f"deposit 1000 {TAKER}", "start 1000", f"key \\{key:03o}", "step 500", "regs"]
        theirs += ["reset all", *(f"d {0o1000 + 2 * i:o} {word}" for i, word in enumerate(TAKER.split())),
                   f"d tti buf {key:o}", "d tti done 1", "d pc 1000", "step 500", "e r0"]
    ours, theirs = talk.answers_of(program, ours), talk.answers_of(simh, theirs + ["quit"])
    typed = [unescaped(line[4:]) for line in ours if line.startswith("TTY ")]
    taken = [line.split()[1] for line in ours if line.startswith("REGS")]
    other_typed = re.findall(r"<.{40}>", "\n".join(theirs))
    other_taken = [line.split()[1] for line in theirs if line.startswith("R0:")]
    wrong = (typed != texts) + (other_typed != texts) + (taken != other_taken)
    print(f"soak/simh: {len(texts)} typed texts and {len(keys)} keys of the console line, "
          f"{'with a difference' if wrong else 'with no difference'}")
    return wrong


def compare(program, simh, seed):
    return disk(program, simh, seed) + console(program, simh, seed)
