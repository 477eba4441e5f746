"""The exerciser on the model of the machine (model/pdp11): a run of it, and the words that it has to expect."""
import multiprocessing
import os
import sys

from . import sources

sys.path.append(os.path.join(sources.FOLDER, "..", "..", "model"))
from pdp11.drive import Drive  # noqa: E402 (the folder is known only now)
from pdp11.panel import Panel  # noqa: E402

QUICK, PERIOD, PROMPT, ANSWERED = 0o40000, 500, "KEY? ", "WHICH DRIVE, 0-7? "
MOST_TURNS = 3000000


def names_of(assembly):
    return dict(assembly.symbols.table())


class Run:
    """A tape on a machine of the model. `typed` is what it has typed; `turns` how many turns it has made."""

    def __init__(self, assembly, kilowords=28, packs=2, tick=PERIOD):
        self.panel = Panel(kilowords)
        self.machine, self.names = self.panel.machine, names_of(assembly)
        self.typed = ""
        for place, byte in assembly.memory.items():
            even = place & ~1
            kept = self.machine.memory[even]
            self.machine.memory[even] = kept & 0o377 | byte << 8 if place % 2 else kept & 0o177400 | byte
        for number in range(packs):
            self.machine.disk.drives[number] = Drive(b"", False)
        self.panel.start(assembly.entry)
        self.panel.clock(tick)

    def until(self, *texts):
        """Runs until it has typed one of the texts, or halts, or has made too many turns; whether it has typed one. At each
        comparison `compares` is called."""
        machine, check = self.machine, self.names["CHECK"]
        self.typed = ""
        for _ in range(MOST_TURNS):
            if machine.program == check and not machine.waiting:
                self.compares()
            machine.turn()
            if machine.typed:
                self.typed += "".join(chr(code) for code in machine.typed if code and code != 0o15)
                machine.typed.clear()
                if self.typed.endswith(texts):
                    return True
            if machine.halted:
                return False
        return False

    def compares(self):
        """The program is about to compare words."""

    def alone(self, number, quick):
        """One group, by the switches; whether it has come to its end."""
        self.panel.switches(number + 1 + QUICK * quick)
        if self.until(ANSWERED if self.is_asked(number) else PROMPT):
            if not self.is_asked(number):
                return True
            self.panel.key([ord("1")])
            return self.until(PROMPT)
        return False

    def is_asked(self, number):
        place = self.names["GROUPS"] + 0o10 * number
        return self.machine.memory[place + 4] & 0o100000 != 0


class Learning(Run):
    """A run that notes the words which are found, by their places, and takes them for what is expected."""

    def __init__(self, assembly, **sizes):
        super().__init__(assembly, **sizes)
        self.noted = {}

    def compares(self):
        memory, place = self.machine.memory, self.machine.memory[self.names["WANT"]]
        for at in range(0, 2 * self.machine.general[1], 2):
            self.noted[place + at] = memory[place + at] = memory[self.names["FOUND"] + at]


def learned(job):
    """The expected words of a group."""
    tape, number = job
    assembly = sources.with_room(tape)
    run = Learning(assembly)
    if not run.alone(number, quick=False):
        raise ValueError(f"group {number} of {tape} doesn't end: {run.typed[-200:]}")
    first = run.names["EXPECT"] + 2 * len(sources.groups(tape)) + sources.ROOM * number
    return [run.noted.get(place) for place in range(first, max(run.noted, default=first - 2) + 2, 2)]


def all_learned(tape):
    """The expected words of all groups of a tape."""
    jobs = [(tape, number) for number in range(len(sources.groups(tape)))]
    with multiprocessing.Pool() as pool:
        return pool.map(learned, jobs, chunksize=1)
