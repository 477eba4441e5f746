"""The machines of soak/forth: p11 and SIMH's PDP-11, each with a Forth pack on drive 0 and its terminal.

Both have type(text), which presses keys; answer(until), which lets the machine go on until what it typed since the last
call ends with this text, or for so long, and gives what was typed; and end().
"""
import atexit
import os
import pty
import re
import select
import subprocess
import time

LOADER = "deposit 1000 12700 177406 12710 177400 12740 5 105710 100376 5007"
SLICE = 200_000
# Seconds for an answer of SIMH, also on a host that has much else to do.
PATIENCE = 600


class Stuck(Exception):
    """No key is taken any more."""


class P11:
    """A machine behind `p11 -`."""

    def __init__(self, program, pack, access="rw", settings=()):
        self.console = subprocess.Popen([program, *settings, "-"], stdin=subprocess.PIPE, stdout=subprocess.PIPE,
                                        text=True)
        self.typed, self.stop, self.turns = "", "", 0
        for line in (f"mount 0 {pack} {access}", LOADER, "start 1000"):
            self.ask(line)

    def ask(self, line):
        """The answer to a line of the console that has one line, but for what the machine typed before it."""
        self.console.stdin.write(line + "\n")
        self.console.stdin.flush()
        answer = self.console.stdout.readline().rstrip("\n")
        while answer.startswith("TTY "):
            self.typed += re.sub(r"\\([0-7]{3})", lambda match: chr(int(match[1], 8)), answer[4:])
            answer = self.console.stdout.readline().rstrip("\n")
        return answer

    def run(self, turns):
        _, self.stop, made, _ = self.ask(f"continue {turns}").split()
        self.turns += int(made)

    def type(self, text):
        """Presses keys, as many as wait at once, and lets the machine take them where there is no room."""
        for first in range(0, len(text), 32):
            line = "key " + "".join(one if "!" <= one <= "~" and one != "\\" else f"\\{ord(one):03o}"
                                    for one in text[first:first + 32])
            while (answer := self.ask(line)) != "OK":
                if not answer.startswith("? 8") or self.stop in ("idle", "halt"):
                    raise Stuck(f"{line} is answered {answer}, after a run that ended by {self.stop}")
                self.run(1000)
            self.stop = ""

    def answer(self, until=None, turns=200_000_000):
        """What was typed, once it ends so, or once the machine waits for a key or has halted."""
        for _ in range(turns // SLICE):
            if until and self.typed.endswith(until):
                break
            self.run(SLICE)
            if self.stop in ("idle", "halt"):
                break
        typed, self.typed = self.typed, ""
        return typed

    def end(self):
        self.console.stdin.close()
        self.console.wait()


class Simh:
    """A machine of SIMH: an 11/40 of 28 K words. SIMH polls its keyboard without waiting only if that is a terminal."""

    SETTINGS = ["set cpu 11/40", "set cpu 64K", "set tti 8b", "set tto 8b", "d tti time 2000"]

    def __init__(self, program, pack, folder):
        script = os.path.join(folder, "forth.ini")
        with open(script, "w") as file:
            file.write("\n".join([*self.SETTINGS, f"attach rk0 {pack}", "boot rk0", "detach all", "quit"]) + "\n")
        self.keys, terminal = pty.openpty()
        self.console = subprocess.Popen([program, script], stdin=terminal, stdout=terminal)
        atexit.register(self.console.kill)
        os.close(terminal)
        self.typed = ""

    def type(self, text):
        os.write(self.keys, text.encode("latin-1"))

    def read(self):
        """What it has typed up to now; None once it has ended."""
        try:
            return os.read(self.keys, 65536).decode("latin-1") if select.select([self.keys], [], [], 0.1)[0] else ""
        except OSError:
            return None

    def answer(self, until):
        """What was typed, once it ends so, when SIMH has ended, or when it took too long."""
        limit = time.monotonic() + PATIENCE
        while time.monotonic() < limit and not self.typed.endswith(until) and (some := self.read()) is not None:
            self.typed += some
        typed, self.typed = self.typed, ""
        return typed

    def end(self):
        """The machine halts by BYE, and SIMH's script ends."""
        self.type("BYE\r")
        self.answer("Goodbye\r\n")
        os.close(self.keys)
        self.console.terminate()
        self.console.wait()
