"""One turn of the machine, made by the model (model/pdp11) on the words that p11 shows, to see what it reads and writes."""
import os
import sys

TOP = os.path.dirname(os.path.dirname(os.path.dirname(os.path.realpath(__file__))))
sys.path.insert(0, os.path.join(TOP, "model"))
from assembler.disassembler import disassembled  # noqa: E402
from pdp11 import status  # noqa: E402 (the folder is known only now)
from pdp11.faults import Fault, RedStack  # noqa: E402
from pdp11.machine import STACK_LIMIT, STATUS_WORD, Machine, TimeOut  # noqa: E402
from pdp11.numbers import BYTE, WORD, byte_of  # noqa: E402
from pdp11.translation import Abort  # noqa: E402

from .replay import word_at  # noqa: E402

INTERRUPTS = (0o100, 0o220, 0o60, 0o64)


class Reference:
    """A word or a byte that was read or written: its address, the place on the bus, what it was, and why there is none."""

    def __init__(self, what, mode, virtual, size):
        self.what, self.mode, self.virtual, self.size = what, mode, virtual, size
        self.place = self.value = self.why = None


class Snapshot:
    """What p11 shows of the machine between two turns: the registers, the pages and the stack limit."""

    def __init__(self, console):
        self.console = console
        regs = [line.split() for line in console.ask("regs")]
        self.general = [int(word, 8) for word in regs[0][1:]]
        self.kernel_stack, self.user_stack, self.program, self.status = (int(regs[1][at], 8) for at in (1, 2, 4, 6))
        self.turns, self.mark = int(regs[2][1]), regs[2][2]
        self.status_0, self.status_2 = self.examine(0o777572), self.examine(0o777576)
        self.stack_limit = self.examine(STACK_LIMIT)
        self.pages = {}
        if self.status_0 & 1:
            for mode, pdr, par in ((status.KERNEL, 0o772300, 0o772340), (status.USER, 0o777600, 0o777640)):
                self.pages[mode] = self.words(pdr), self.words(par)

    def words(self, address):
        return [int(line.split()[2], 8) for line in self.console.ask(f"examine {address:o} 8")]

    def examine(self, address):
        """The word at a bus address, or None where nothing answers."""
        return word_at(self.console, address)

    def registers(self):
        return (*self.general, self.kernel_stack, self.user_stack, self.program, self.status)


class Turn(Machine):
    """The model of the machine before a turn, which it makes at once: the instruction, or the interrupt of a vector.

    `text` is the instruction, `references` what was read and written, `services` the vectors of the traps and interrupts that
    were served, `fatal` whether the fatal service came, `red` whether the stack's red zone brought it, and `taken_to` where
    the kernel's stack pointer stood before a service."""

    def __init__(self, before, interrupt=None):
        super().__init__(0)
        self.snapshot, self.interrupt, self.overlay = before, interrupt, {}
        self.references, self.services, self.fatal, self.red = [], [], False, False
        self.taken_to = None
        self.general = list(before.general)
        self.kernel_stack, self.user_stack = before.kernel_stack, before.user_stack
        self.program, self.status, self.stack_limit = before.program, before.status, before.stack_limit
        self.waiting = before.mark == "waiting"
        self.management.status_0, self.management.status_2 = before.status_0, before.status_2
        for mode, (descriptors, addresses) in before.pages.items():
            self.management.page_descriptors[mode] = list(descriptors)
            self.management.page_addresses[mode] = list(addresses)
        self.text = self.instruction_text()
        if interrupt is not None:
            self.service(interrupt)
        elif not self.waiting:
            self.instruction()

    def registers(self):
        return (*self.general, self.kernel_stack, self.user_stack, self.program, self.status)

    def instruction_text(self):
        """The instruction at PC; empty if PC is odd, or its word can't be read."""
        words = []
        for at in range(3):
            word = self.peek(status.current_mode(self.status), self.program + 2 * at)
            if word is None:
                break
            words.append(word)
        return disassembled(self.program, words) if words else ""

    def quietly(self, mode, virtual):
        """The place on the bus of a virtual address, without what a reference changes; None if it has none."""
        kept = self.management.status_0
        try:
            return self.management.place(mode, virtual % 0o200000, False)
        except Abort:
            return None
        finally:
            self.management.status_0 = kept

    def peek(self, mode, virtual):
        """The word at a virtual address, as quietly; None if there is none."""
        place = self.quietly(mode, virtual)
        return None if place is None or place % 2 else self.see(place)

    # What the model asks of its bus is asked of p11, and what it writes stays here.

    def see(self, address):
        if address == STATUS_WORD:
            return self.status
        if address in self.overlay:
            return self.overlay[address]
        return self.snapshot.examine(address)

    def bus_read(self, address, size):
        word = self.see(address & ~1)
        if word is None:
            raise TimeOut()
        return word if size == WORD else byte_of(word, address % 2 == 1)

    def bus_write(self, address, value, size):
        word = self.see(address & ~1)
        if word is None:
            raise TimeOut()
        if address & ~1 == STATUS_WORD and size == WORD:
            self.status = status.from_write(self.status, value)
        if size == BYTE:
            value = word & 0o377 | value << 8 if address % 2 else word & 0o177400 | value
        if address < 0o760000:
            self.overlay[address & ~1] = value

    def refer(self, mode, virtual, size, writes):
        found = Reference("wrote" if writes else "read", mode, virtual, size)
        self.references.append(found)
        if size == WORD and virtual % 2:
            found.why = "odd"
        else:
            causes = self.management.enabled() and self.management.causes(mode, virtual, writes)
            found.why = ("mode" if mode not in (status.KERNEL, status.USER) else causes) if causes else None
        found.place = super().refer(mode, virtual, size, writes)
        return found.place

    def read(self, mode, virtual, size):
        value = super().read(mode, virtual, size)
        self.references[-1].value = value
        return value

    def write(self, mode, virtual, value, size):
        super().write(mode, virtual, value, size)
        self.references[-1].value = value

    def service(self, vector):
        self.services.append(vector)
        self.taken_to = self.kernel_stack
        self.look_at_vector(vector)
        return super().service(vector)

    def fatal_service(self, old_program, old_status):
        self.fatal = True
        self.look_at_vector(4)
        super().fatal_service(old_program, old_status)

    def look_at_vector(self, vector):
        """Keeps a vector's words, and its place on the bus: None if it can't be read."""
        self.vector = [self.peek(status.KERNEL, vector + at) for at in (0, 2)]
        self.vector_place = None if None in self.vector else self.quietly(status.KERNEL, vector)

    def execute(self):
        try:
            return super().execute()
        except Fault as fault:
            if self.references and self.references[-1].value is None and self.references[-1].why is None \
                    and self.references[-1].place is not None and fault.vector == 4:
                self.references[-1].why = "absent"
            raise
        except RedStack:
            self.red, self.taken_to = True, self.kernel_stack
            raise


def turn_made(before, made, after):
    """What a turn was, where MADE is its instruction and AFTER the snapshot behind it: an interrupt, if only that fits."""
    if made.registers() != after.registers():
        for vector in INTERRUPTS:
            other = Turn(before, vector)
            if other.registers() == after.registers():
                return other
    return made
