"""lockstep_faulty.py LIBRARY FAULT [few]: a machine with a fault, which speaks the protocol of examples/lockstep: the proved one
over the library, whose registers are set wrong behind the instruction that the fault is of. LIBRARY is the library for C
as a shared object; a FAULT of `none` is none. With `few` it speaks those lines alone that a COMMAND has to."""
import os
import sys

sys.dont_write_bytecode = True
sys.path.insert(0, os.path.join(os.path.dirname(os.path.abspath(__file__)), "..", "examples"))
from lockstep_sides import Ours  # noqa: E402 (no compiled files are left beside the scripts)


def asr_without_sign(machine, word, before):
    """ASR of a register shifts in a 0 where the sign was 1."""
    number = word & 7
    if 0o6200 <= word < 0o6206 and before[number] & 0o100000:
        machine.line(f"set {number} {before[number] >> 1:o}")


def sub_without_borrow(machine, word, before):
    """SUB never sets C."""
    registers = machine.regs
    if word >> 12 == 0o16 and registers[9] & 1:
        machine.line(f"set 11 {registers[9] & ~1:o}")


def sob_once_more(machine, word, before):
    """SOB goes back when its register has come to 0, too."""
    registers = machine.regs
    number = word >> 6 & 7
    if word >> 9 == 0o77 and number < 6 and registers[number] == 0:
        machine.line(f"set 7 {registers[8] - 2 * (word & 0o77):o}")


FAULTS = {"none": None, "asr": asr_without_sign, "sub": sub_without_borrow, "sob": sob_once_more}


class Faulty(Ours):
    """The machine, turn by turn."""

    def __init__(self, library, fault):
        super().__init__(library)
        self.fault = fault

    def step(self, turns):
        if self.fault is None:
            return super().step(turns)
        for _ in range(turns):
            words, (before, _) = self.words_at_pc(), self.state()
            _, how = super().step(1)
            if words:
                self.fault(self.machine, words[0], before)
            if how == "halted":
                break
        return self.state()


def answer(machine, line, few):
    name, *words = line.split()
    if few and name in ("new", "until"):
        return f"? no such line: {line}"
    if name == "new":
        machine.new(int(words[0]))
    elif name == "disk":
        with open(words[0], "rb") as file:
            machine.disk(file.read())
    elif name == "put":
        machine.put(int(words[0], 8), [int(word, 8) for word in words[1:]])
    elif name == "go":
        machine.go(int(words[0], 8))
    elif name in ("step", "until"):
        registers, how = machine.step(int(words[0])) if name == "step" else machine.until(int(words[0], 8))
        return " ".join(f"{word:06o}" for word in registers) + " " + how
    else:
        return f"? no such line: {line}"
    return "ok"


def main():
    library, fault, *few = sys.argv[1:]
    machine = Faulty(library, FAULTS[fault])
    if few:
        machine.new(28)
    for line in sys.stdin:
        print(answer(machine, line.strip(), few), flush=True)
    machine.drop()


if __name__ == "__main__":
    main()
