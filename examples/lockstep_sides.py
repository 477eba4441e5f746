"""The machines that examples/lockstep sets side by side: the proved one over the library, SIMH's, and any command that
speaks the protocol of examples/lockstep. Each has the protocol's lines as calls:

    new(kwords), disk(image), put(address, words), go(address), until(address), step(turns), drop()

and for the cases of examples/CASES.md

    regs(words), devices(switches, clock, keys, packs)

`step` and `until` give the state: R0 to R5, the stack pointers of kernel and user mode, PC and the status word; and how it
stands: ready, waiting, halted or between.
"""
import os
import pty
import re
import select
import subprocess
import sys
import tempfile
import tty

PYTHON = os.path.join(os.path.dirname(os.path.realpath(__file__)), "..", "python")
# Seconds in which a command answers a line, and turns that it may make in a second besides.
PATIENCE, PACE = 10, 1000
SET = ("r0", "r1", "r2", "r3", "r4", "r5", "ksp", "usp", "pc", "ps")
INPUT_OUTPUT_PAGE = 0o760000
NAMES = ["R0", "R1", "R2", "R3", "R4", "R5", "KSP", "USP", "PC", "PSW"]
MOST = 100000000


class Ours:
    """The proved machine, over the library that python/p11 finds, or another shared object."""

    def __init__(self, library=None):
        if library:
            os.environ["P11_LIBRARY"] = os.path.abspath(library)
        sys.path.insert(0, PYTHON)
        # this side alone wants the library
        from p11 import Machine
        self.make, self.machine = Machine, None

    def new(self, kwords):
        self.drop()
        self.machine = self.make(kwords)

    def drop(self):
        if self.machine is not None:
            self.machine.close()

    def disk(self, image):
        self.machine.mount(0, image)

    def put(self, address, words):
        self.machine.deposit(address, words)

    def go(self, address):
        self.machine.start(address)

    def regs(self, words):
        self.machine.set(**dict(zip(SET, words)))

    def devices(self, switches, clock, keys, packs):
        """Sets the switches and the clock's period, presses keys, and mounts packs: drive, whether it's protected, file."""
        self.machine.line(f"switches {switches:o}")
        for drive, protected, name in packs:
            with open(name, "rb") as file:
                self.machine.mount(drive, file.read(), not protected)
        self.machine.line(f"clock {clock}")
        if keys:
            self.machine.key(bytes(keys))

    def step(self, turns):
        if turns:
            self.machine.step(turns)
        return self.state()

    def state(self):
        registers = self.machine.regs
        return registers[:10], registers.mark

    def until(self, address):
        return until(self, address)

    def words_at_pc(self):
        """Three words from PC on, through memory management where it is on; None where nothing answers."""
        registers = self.machine.regs
        try:
            if registers.sr0 & 1:
                pages = 0o777600 if registers.ps & 0o140000 else 0o772300
                base = self.machine.examine(pages + 0o40 + registers.pc // 0o20000 * 2)
                bus = (base * 0o100 + registers.pc % 0o20000) % 0o1000000
            else:
                bus = registers.pc + 0o600000 if registers.pc >= 0o160000 else registers.pc
            return self.machine.examine(bus, 3)
        except ValueError:
            return None


def until(side, address):
    """Steps until PC is an address, or the machine halts."""
    for _ in range(MOST):
        registers, mark = side.step(1)
        if registers[8] == address or mark == "halted":
            return registers, mark
    raise ValueError(f"PC isn't {address:o} after {MOST} turns")


class NoSuchLine(ValueError):
    """A command answers `?`."""


class Command:
    """A command that speaks the protocol. One that doesn't know `new` is started again for each machine, and one that doesn't know
    `until` is stepped."""

    def __init__(self, words):
        self.command, self.name = words, words[0]
        self.has_new = self.has_until = True
        self.begin()

    def begin(self):
        self.process = subprocess.Popen(self.command, stdin=subprocess.PIPE, stdout=subprocess.PIPE)
        self.is_fresh, self.said = True, b""

    def line(self, asked, seconds):
        """The line that is answered; the command is ended if there is none in time."""
        while b"\n" not in self.said:
            if not select.select([self.process.stdout], [], [], seconds)[0]:
                self.process.kill()
                raise ValueError(f"{self.name} answers nothing in {seconds:.0f} seconds to: {asked[:60]}")
            more = os.read(self.process.stdout.fileno(), 65536)
            if not more:
                break
            self.said += more
        line, _, self.said = self.said.partition(b"\n")
        return line.decode("latin-1")

    def ask(self, line, turns=0):
        """What is answered to a line that makes so many turns."""
        try:
            self.process.stdin.write(line.encode() + b"\n")
            self.process.stdin.flush()
        except BrokenPipeError:
            raise ValueError(f"{self.name} has ended before: {line[:60]}") from None
        answer = self.line(line, PATIENCE + turns / PACE).split()
        if not answer:
            raise ValueError(f"{self.name} answers nothing to: {line[:60]}")
        if answer[0] == "?":
            raise NoSuchLine(f"{self.name} answers {' '.join(answer)} to: {line[:60]}")
        return answer

    def new(self, kwords):
        if not self.has_new and not self.is_fresh:
            self.drop()
            self.begin()
        try:
            if self.has_new:
                self.ask(f"new {kwords}")
        except NoSuchLine:
            self.has_new = False
        self.is_fresh = False

    def disk(self, image):
        with tempfile.NamedTemporaryFile() as file:
            file.write(image)
            file.flush()
            self.ask(f"disk {file.name}")

    def put(self, address, words):
        for at in range(0, len(words), 64):
            self.ask(f"put {address + 2 * at:o} " + " ".join(f"{word:o}" for word in words[at:at + 64]))

    def go(self, address):
        self.ask(f"go {address:o}")

    def regs(self, words):
        self.ask("regs " + " ".join(f"{word:o}" for word in words))

    def devices(self, switches, clock, keys, packs):
        self.ask(f"switches {switches:o}")
        for drive, protected, name in packs:
            self.ask(f"pack {drive} {'ro' if protected else 'rw'} {name}")
        self.ask(f"clock {clock}")
        if keys:
            self.ask("keys " + " ".join(map(str, keys)))

    def state_of(self, answer):
        if len(answer) != 11:
            raise ValueError(f"{self.name} answers {' '.join(answer)}, which isn't ten words and how it stands")
        return tuple(int(word, 8) for word in answer[:10]), answer[10]

    def step(self, turns):
        return self.state_of(self.ask(f"step {turns}", turns))

    def until(self, address):
        try:
            return self.state_of(self.ask(f"until {address:o}", MOST)) if self.has_until else until(self, address)
        except NoSuchLine:
            self.has_until = False
            return until(self, address)

    def drop(self):
        try:
            self.process.stdin.close()
        except BrokenPipeError:
            pass
        try:
            self.process.wait(PATIENCE)
        except subprocess.TimeoutExpired:
            self.process.kill()
            self.process.wait()


class Simh:
    """SIMH's PDP-11 as an 11/40, at its console, which wants a terminal. The transmitter is ready after as many instructions
    as in the proved machine. A step that ends before the service of a trap is between two turns."""

    SIZES = (16, 32, 48, 64, 96, 128, 192, 256)

    def __init__(self, program):
        self.program, self.process, self.folder = program, None, tempfile.TemporaryDirectory()

    def ask(self, line):
        if line:
            os.write(self.terminal, line.encode() + b"\n")
        said = b""
        while not said.endswith(b"sim> "):
            if not select.select([self.terminal], [], [], 300)[0]:
                raise ValueError(f"SIMH doesn't answer {line}")
            said += os.read(self.terminal, 65536)
        return said.decode("latin-1")

    def new(self, kwords):
        self.drop()
        self.terminal, theirs = pty.openpty()
        tty.setraw(theirs)
        self.process = subprocess.Popen([self.program], stdin=theirs, stdout=theirs, stderr=theirs)
        os.close(theirs)
        self.ask("")
        self.has_registers = False
        size = next(size for size in self.SIZES if size >= 2 * kwords + 8)
        for line in ("set cpu 11/40", f"set cpu {size}K", "set cpu noidle", "set tto 8b", "d tto time 63"):
            self.ask(line)

    def disk(self, image):
        path = os.path.join(self.folder.name, "pack")
        with open(path, "wb") as file:
            file.write(image.ljust(2494464, b"\0"))
        self.ask(f"attach rk0 {path}")

    def put(self, address, words):
        if address >= INPUT_OUTPUT_PAGE:
            self.find_registers()
            # its console has addresses of 22 bits
            address += 0o17000000
        for at, word in enumerate(words):
            self.ask(f"d {address + 2 * at:o} {word:o}")

    def find_registers(self):
        """Its I/O page is there once an instruction was made."""
        if not self.has_registers:
            word = re.search(r"\t(\d+)", self.ask("e 1000"))[1]
            for line in ("d 1000 240", "d pc 1000", "step 1", f"d 1000 {word}"):
                self.ask(line)
            self.has_registers = True

    def regs(self, words):
        for name, word in zip(NAMES, words):
            self.ask(f"d {name} {word:o}")

    def devices(self, switches, clock, keys, packs):
        raise ValueError("SIMH's devices act in other turns, so cases with devices aren't compared with it")

    def go(self, address):
        for line in ("d psw 0", f"d pc {address:o}"):
            self.ask(line)

    def state(self, said):
        shown = dict(re.findall(r"(\w+):\s+([0-7]+)", self.ask("e " + ",".join(NAMES).lower() + ",traps,wait")))
        how = ("halted" if "HALT instruction" in said else "between" if int(shown["TRAPS"], 8)
               else "waiting" if shown["WAIT"] == "1" else "ready")
        return tuple(int(shown[name], 8) for name in NAMES), how

    def step(self, turns):
        return self.state(self.ask(f"step {turns}") if turns else "")

    def until(self, address):
        self.ask(f"break {address:o}")
        said = self.ask("c")
        self.ask(f"nobreak {address:o}")
        return self.state(said)

    def drop(self):
        if self.process is not None:
            os.write(self.terminal, b"quit\n")
            try:
                self.process.wait(10)
            except subprocess.TimeoutExpired:
                self.process.kill()
            os.close(self.terminal)
