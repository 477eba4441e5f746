"""The model of the machine (model/pdp11), watched while it runs: it tells the references in their order, the traps, and what
the marks of p11_cases.choices stand for. Memory is drawn word by word when a program asks for it first."""
from pdp11 import machine as hardware, status
from pdp11.decode import decode
from pdp11.faults import Fault, RedStack
from pdp11.moves import moves_of
from pdp11.numbers import BYTE, INPUT_OUTPUT_PAGE, WORD
from pdp11.perform import MOVES, Performer
from pdp11.translation import Abort

from . import choices

KWORDS = 124
TOP_OF_MEMORY = KWORDS * 2048
FAULTS = {True: "abort", False: "odd"}


class DrawnMemory(dict):
    """Words by their bus addresses. A word that wasn't asked for yet is drawn by `draw`, and kept in `first`."""

    def __init__(self):
        super().__init__()
        self.first, self.draw = {}, lambda address: 0

    def __contains__(self, address):
        return 0 <= address < TOP_OF_MEMORY and address % 2 == 0

    def __missing__(self, address):
        self.first[address] = word = self.draw(address)
        super().__setitem__(address, word)
        return word

    def __setitem__(self, address, word):
        if address not in self.first:
            self[address]
        super().__setitem__(address, word)

    def place(self, address, word):
        """A word that the case begins with."""
        self.first[address] = word
        super().__setitem__(address, word)

    def forget(self):
        self.first = {}
        self.clear()


class Watched(Performer):
    """Makes the moves of an instruction, and tells the machine of each before it is made."""

    def perform(self, moves):
        following = iter([*moves[1:], None])
        for kind, *arguments in moves:
            self.machine.before(kind, arguments, next(following), self.latches)
            MOVES[kind](self, *arguments)


class Machine(hardware.Machine):
    """The model's machine, which keeps what happens in it since `begin`:

    references  [kind, mode, virtual address, bus address or None, the word or byte, or `odd`, `abort`, `timeout`]; the kinds
                are r and w for words, rb and wb for bytes
    traps       the vectors whose services began, in their order
    marks       the choices that decide something in the case

    and `is_rewritten`, whether an instruction ran that was written in the case.
    """

    def __init__(self):
        super().__init__(4)
        self.memory = DrawnMemory()
        self.memory.draw = self.draw_word
        self.begin(None)

    def begin(self, drawn):
        """Begins a case. `drawn` gives a word for what it is wanted (`instruction`, `address`, `status`, `vector`, `word`, or
        `old`, where it is written over), for the number that is added to an address, and for its place in memory."""
        self.references, self.traps, self.marks, self.instructions = [], [], set(), []
        self.changed, self.is_rewritten = set(), False
        self.drawn, self.wanted, self.serving, self.stage = drawn, None, False, None

    def before(self, kind, arguments, following, latches):
        """A move is about to be made; what it reads is told to whoever draws the word."""
        self.stage.add(self, kind, arguments, latches)
        if kind != "read":
            return
        latch = arguments[0]
        if latch == "address":
            self.wanted = ("address", 0)
        elif latch == "index":
            self.wanted = ("address", self.register(following[2]))
        elif latch in ("program", "link"):
            self.wanted = ("address", 0)
        elif latch == "status":
            self.wanted = ("status", 0)

    # References.

    def refer(self, mode, virtual, size, writes):
        kind = ("w" if writes else "r") + ("b" if size == BYTE else "")
        self.now = [kind, mode, virtual, None, None]
        self.references.append(self.now)
        try:
            self.now[3] = address = super().refer(mode, virtual, size, writes)
        except Fault as fault:
            self.now[4] = FAULTS[isinstance(fault.__context__, Abort)]
            choices.refused(self, mode, virtual, writes, self.now[4])
            raise
        if address >= INPUT_OUTPUT_PAGE:
            choices.page_reached(self, address, size, writes)
        return address

    def read(self, mode, virtual, size):
        try:
            word = super().read(mode, virtual, size)
        except Fault:
            self.not_answered()
            raise
        finally:
            self.wanted = None
        self.now[4] = word
        return word

    def write(self, mode, virtual, value, size):
        self.wanted = self.wanted or ("old", 0)
        try:
            super().write(mode, virtual, value, size)
        except Fault:
            self.not_answered()
            raise
        finally:
            self.wanted = None
        self.now[4] = value

    def not_answered(self):
        if self.now[4] is None:
            self.now[4] = "timeout"

    def bus_write(self, address, value, size):
        super().bus_write(address, value, size)
        self.changed.add(address & ~1)
        choices.written(self)

    # Services and instructions.

    def push(self, mode, word):
        choices.pushed(self, mode)
        super().push(mode, word)

    def service(self, vector):
        self.traps.append(vector)
        self.serving = True
        made = super().service(vector)
        self.serving = False
        choices.served(self, vector, made)
        return made

    def draw_word(self, address):
        """The word that memory has at an address that nobody asked for before."""
        wanted, self.wanted = self.wanted, None
        if wanted is None:
            wanted = ("vector" if self.serving else "word", 0)
        return self.drawn(wanted[0], wanted[1], address)

    def fatal_service(self, old_program, old_status):
        self.marks.add("fatal-service")
        super().fatal_service(old_program, old_status)

    def instruction(self):
        self.stage = choices.Stage(self)
        super().instruction()
        choices.completed(self)

    def execute(self):
        self.management.begin_instruction(self.program)
        self.wanted = ("instruction", 0)
        word = self.read(status.current_mode(self.status), self.program, WORD)
        self.program = (self.program + 2) % 65536
        operation = decode(word)
        self.is_rewritten |= self.now[3] in self.changed
        self.instructions.append((word, operation))
        self.stage.decoded(self, word, operation)
        try:
            Watched(self).perform(moves_of(operation))
        except RedStack:
            self.marks.add("red-zone")
            raise
        except Fault as fault:
            self.stage.faulted(self, fault)
            raise
        self.stage.done(self)
        return operation.name

    def devices_act(self):
        before = [getattr(device, request) for _, _, device, request in self.requests()]
        super().devices_act()
        choices.devices_acted(self, before)
