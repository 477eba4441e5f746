"""serve.py: the model as a COMMAND of examples/run-cases: it does the lines that come, and answers each by one line."""
import os
import sys

sys.dont_write_bytecode = True
HERE = os.path.dirname(os.path.abspath(__file__))
sys.path[:0] = [HERE, os.path.join(HERE, "..", "examples")]
from cases_serving import serve  # noqa: E402 (no compiled files are left beside the scripts)
from pdp11.drive import Drive  # noqa: E402
from pdp11.numbers import WORD  # noqa: E402
from pdp11.panel import Panel  # noqa: E402

PLACES = (0, 1, 2, 3, 4, 5, 6, 0o10, 7, 0o11)


class Memory(dict):
    """A new machine's memory, whose words are 0 until they are written."""

    def __init__(self, kwords):
        super().__init__()
        self.end = kwords * 2048

    def __contains__(self, address):
        return 0 <= address < self.end and address % 2 == 0

    def __missing__(self, address):
        return 0


class Machine:
    """The model under the lines of run-cases."""

    def new(self, kwords):
        self.panel = Panel(0)
        self.machine = self.panel.machine
        self.machine.memory = Memory(kwords)

    def put(self, address, *words):
        for at, word in enumerate(words):
            self.machine.bus_write(address + 2 * at, word, WORD)

    def get(self, address, count):
        return [self.machine.bus_read(address + 2 * at, WORD) for at in range(count)]

    def regs(self, *words):
        for place, word in zip(PLACES, words, strict=True):
            self.panel.set(place, word)

    def step(self, turns):
        machine = self.machine
        for _ in range(turns):
            machine.turn()
            if machine.halted:
                break
        how = "halted" if machine.halted else "waiting" if machine.waiting else "ready"
        return (*machine.general, machine.kernel_stack, machine.user_stack, machine.program, machine.status), how

    def switches(self, word):
        self.panel.switches(word)

    def clock(self, period):
        self.panel.clock(period)

    def keys(self, *keys):
        self.panel.key(list(keys))

    def pack(self, number, protected, name):
        with open(name, "rb") as file:
            self.machine.disk.drives[number] = Drive(file.read(), protected)

    def typed(self):
        return self.machine.typed

    def sector(self, number, sector):
        return self.machine.disk.drives[number].sectors[sector].hex()


if __name__ == "__main__":
    serve(Machine())
