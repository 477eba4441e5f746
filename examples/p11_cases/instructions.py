"""Cases of one turn: an instruction, with the trap that comes of it, in a drawn state."""
from typing import NamedTuple

from pdp11.decode import TABLE

from . import state
from .choices import DEVICES, PRODUCTS
from .drawing import KERNEL, USER, Draws


class Kind(NamedTuple):
    """A row of the instruction table, and the modes of its operands in memory or registers."""
    row: tuple
    modes: tuple

    @property
    def name(self):
        return self.row[2] if self.row else "RESERVED"

    @property
    def share(self):
        """How many times as many cases it gets as an instruction has of a pair of modes."""
        return 1 if len(self.modes) == 2 else 2 if self.modes else 8

    def text(self):
        return self.name + "".join(f" {mode}" for mode in self.modes)


def kinds():
    """Each row with each mode, or each pair of modes, and the reserved words."""
    for row in TABLE:
        if row[3] == ("source", "destination"):
            yield from (Kind(row, (source, destination)) for source in range(8) for destination in range(8))
        elif "destination" in row[3]:
            yield from (Kind(row, (mode,)) for mode in range(8))
        else:
            yield Kind(row, ())
    yield Kind(None, ())


class Drawn(NamedTuple):
    """A case as it was drawn: its name and kind, its state before the turns, and how many turns the model has made."""
    name: str
    kind: str
    before: dict
    turns: int


def begin(machine, draws, kind):
    """Puts a machine into a drawn state, at an instruction of a kind."""
    mode, mapped = draws.mode(), draws.chance(0.42)
    word = draws.of_row(kind.row, kind.modes)
    limit = draws.pick([0] * 20 + [0o400, 0o2000, 0o177400])
    program = draws.even(0o400, 0o157000) if draws.chance(0.985) else draws.pick([1, 0o1001, 0o157776, 0o160000, 0o177776])
    draws.program = program
    before = state.blank()
    before["r"] = [draws.address() if draws.chance(0.88) else draws.word() for _ in range(6)]
    for number, chosen in numbers_of(kind, word, draws):
        before["r"][number] = chosen
    pushes = kind.name in ("JSR", "MFPI") or word & 7 == 6 and kind.modes and kind.modes[-1] in (4, 5)
    before.update(ksp=draws.stack(limit + 0o400, 0.4 if pushes else 0.15), usp=draws.stack(0o400), pc=program,
                  ps=draws.status(mode), slr=limit)
    if mapped:
        descriptors, addresses = draws.pages(mode, program)
        standing = draws.pick([0] * 40 + [0o100000, 0o40000, 0o20000])
        before.update(sr0=standing + 1, kpdr=descriptors[KERNEL], kpar=addresses[KERNEL], updr=descriptors[USER],
                      upar=addresses[USER])
    state.put(machine, before)
    machine.begin(draws.drawn)
    place_word(machine, mode, program, word)
    return before


def numbers_of(kind, word, draws):
    """Registers that are operands, with words rather than addresses; pairs of which many quotients fit."""
    modes, registers = kind.modes, (word & 7, word >> 6 & 7)
    if modes and modes[-1] == 0 and registers[0] < 6:
        yield registers[0], draws.word()
    if (len(modes) == 2 and modes[0] == 0 or kind.name in ("XOR", "SOB")) and registers[1] < 6:
        yield registers[1], draws.word()
    if kind.name in PRODUCTS and registers[1] < 6:
        high = draws.pick([0, 0, 0o177777, draws.word(), draws.below(64)])
        yield registers[1], high
        yield registers[1] | 1, draws.word() if registers[1] % 2 == 0 else high
    if kind.name in ("ASH", "ASHC") and modes == (0,) and registers[0] < 6 and registers[0] | 1 != registers[1] | 1:
        yield registers[0], draws.below(65536)


def place_word(machine, mode, program, word):
    """Puts the opcode to where a program finds it, if that is in memory."""
    management = machine.management
    if management.enabled() and management.causes(mode, program, False):
        return
    place = management.place(mode, program, False)
    if place in machine.memory:
        machine.memory.place(place, word)


def draw(machine, seed, kind, number):
    """The case of a kind and a number: drawn again where it meets a device."""
    again = 0
    while True:
        draws = Draws(f"{seed} {kind.text()} {number} {again}")
        before = begin(machine, draws, kind)
        machine.turn()
        if not machine.marks & set(DEVICES):
            return Drawn(f"{kind.text()} {number}", "instruction", before, 1)
        again += 1
