"""The machines on which tests/exerciser and soak/exerciser run the exerciser: a program as p11, SIMH's PDP-11, and the model."""
import os
import pty
import re
import select
import subprocess
import sys
import time
from itertools import takewhile

sys.path.insert(0, os.path.join(os.path.dirname(os.path.abspath(__file__)), "..", "examples"))
from p11_exerciser import model  # noqa: E402 (the folder is known only now)
from pdp11 import decode, machine  # noqa: E402

PROMPT, DRIVE = "KEY? ", "WHICH DRIVE, 0-7? "
LOADER = "deposit 1000 12700 177406 12710 177400 12740 5 105710 100376 5007"
SLICE, MOST_TURNS, PATIENCE = 20_000, 20_000_000, 120
OPTIONS = {"KT11": range(0o772300, 0o772360), "KW11": [0o777546], "RK11": range(0o777400, 0o777420), "LIMIT": [0o777774],
           "SWITCHES": [0o777570]}
# the options whose bits have other names in the sources
BITS = {"SWITCHES": "SWR"}
KT11_TOO = [*range(0o777572, 0o777600), *range(0o777600, 0o777660)]


def plain(text):
    """What was typed, without the bytes of zeros, with line feeds alone."""
    return text.replace("\0", "").replace("\r", "")


class P11:
    """A tape or a pack on `p11 -`, with an empty pack in drive 1 and a clock; `turns` is how many turns it has made."""

    def __init__(self, program, path, kilowords):
        self.console = subprocess.Popen([program, "--memory", str(kilowords), "-"], stdin=subprocess.PIPE,
                                        stdout=subprocess.PIPE, text=True)
        self.typed, self.turns = "", 0
        self.ask("mount 1 /dev/null rw")
        if path.endswith(".pack"):
            lines = [f"mount 0 {path} rw", LOADER]
        else:
            lines = ["mount 0 /dev/null rw", f"load {path}"]
        for line in [*lines, "clock 500", "start 1000"]:
            self.ask(line)

    def ask(self, line):
        """The answer to a line, but for what the machine typed before it."""
        self.console.stdin.write(line + "\n")
        self.console.stdin.flush()
        answer = self.console.stdout.readline().rstrip("\n")
        while answer.startswith("TTY "):
            self.typed += re.sub(r"\\([0-7]{3})", lambda match: chr(int(match[1], 8)), answer[4:])
            answer = self.console.stdout.readline().rstrip("\n")
        return answer

    def type(self, text):
        self.ask("key " + text)

    def answer(self, until):
        """What it types up to a text."""
        for _ in range(MOST_TURNS // SLICE):
            self.turns += int(self.ask(f"continue {SLICE}").split()[2])
            if plain(self.typed).endswith(until):
                break
        typed, self.typed = plain(self.typed), ""
        return typed

    def end(self):
        self.console.stdin.close()
        self.console.wait()


class Simh:
    """A tape on SIMH's PDP-11 as an 11/40, with options in SIMH's words."""

    def __init__(self, program, path, folder, *settings):
        script, pack = os.path.join(folder, "exerciser.ini"), os.path.join(folder, "scratch.pack")
        with open(pack, "wb") as file:
            file.write(bytes(203 * 2 * 12 * 512))
        lines = ["set cpu 11/40", "set cpu 256K", *settings, f"attach rk0 {pack}", f"load {path}", "go", "quit"]
        with open(script, "w", encoding="ascii") as file:
            file.write("\n".join(lines) + "\n")
        self.keys, terminal = pty.openpty()
        self.console = subprocess.Popen([program, script], stdin=terminal, stdout=terminal)
        os.close(terminal)

    def answer(self, until):
        typed, limit = "", time.monotonic() + PATIENCE
        while time.monotonic() < limit and not plain(typed).endswith(until) and self.console.poll() is None:
            if select.select([self.keys], [], [], 0.1)[0]:
                typed += os.read(self.keys, 65536).decode("latin-1")
        return plain(typed)

    def type(self, text):
        os.write(self.keys, text.encode("ascii"))

    def end(self):
        self.console.kill()
        self.console.wait()
        os.close(self.keys)


class Model(model.Run):
    """A tape on the model, as it is or as a wrong machine."""

    def names_difference(self, number):
        """Whether a group alone finds a difference."""
        self.panel.switches(number + 1)
        if self.is_asked(number):
            if not self.until(model.ANSWERED):
                return False
            self.panel.key([ord("1")])
        return self.until("  FOUND", PROMPT) and self.typed.endswith("  FOUND")

    def halts(self):
        """Whether it halts before it types anything."""
        self.until(" ")
        return self.machine.halted and self.typed == ""

    def start(self):
        """The first line that it types."""
        self.until("\nA ")
        return self.typed.strip().partition("\n")[0]

    def needing(self, option):
        """The numbers of the groups that need an option."""
        bit, places = self.names[BITS.get(option, option)], range(self.names["GROUPS"], 0o160000, 0o10)
        needs = [self.machine.memory[place + 4] for place in takewhile(lambda place: self.machine.memory[place], places)]
        return [number for number, need in enumerate(needs) if need & bit]

    def leaves_out(self, number):
        """Whether it says of a group alone that it is left out."""
        self.panel.switches(number + 1)
        return self.until(PROMPT) and self.typed.removesuffix(PROMPT).endswith(" LEFT OUT\n\n")

    def without(self, option):
        """Takes an option away."""
        if option == "EIS":
            self.machine.__class__ = NoEis
            return
        silent = set(OPTIONS[option]) | (set(KT11_TOO) if option == "KT11" else set())
        right = self.machine.see
        self.machine.see = lambda place: None if place in silent else right(place)


class NoEis(machine.Machine):
    """The model without MUL, DIV, ASH and ASHC."""

    def execute(self):
        kept = machine.decode
        machine.decode = lambda word: decode.RESERVED if 0o070000 <= word < 0o074000 else kept(word)
        try:
            return super().execute()
        finally:
            machine.decode = kept


def is_named(assembly, group, turn):
    """Whether a wrong machine, whose rule TURN turns in this process, is named by its group, or halts at once for group `-`."""
    turn()
    run = Model(assembly)
    return run.halts() if group == "-" else run.names_difference(ord(group) - ord("A"))
