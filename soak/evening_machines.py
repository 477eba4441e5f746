"""The machines of tests/evening and soak/evening: p11 and SIMH with the evening's pack, at its menu."""
import os
import signal
import sys

sys.path.insert(0, os.path.dirname(os.path.abspath(__file__)))
import forth_machines as machines  # noqa: E402

PACK = "examples/evening.pack"
PROMPT = "\r\n> "
MENU = "\r\nAn evening's programs\r\n"
BASIC = "bytes free. HELP lists its words; BYE goes to the menu." + PROMPT


class Differs(Exception):
    """Something isn't typed as it has to be."""


def expect(machine, wanted, what):
    """What the machine types has to be this."""
    found = machine.answer(wanted)
    if found != wanted:
        raise Differs(f"{what}\n  has to type {wanted!r}\n  and typed   {found!r}")


def at_menu(machine):
    """Waits for the menu."""
    found = machine.answer("shows this again." + PROMPT)
    if not found.startswith(MENU) or not found.endswith(PROMPT):
        raise Differs(f"the boot types {found!r}")


def in_basic(machine):
    """Waits for the menu, and goes into BASIC."""
    at_menu(machine)
    machine.type("basic\r")
    found = machine.answer(BASIC)
    if not found.startswith("basic\r\nBASIC, ") or not found.endswith(BASIC):
        raise Differs(f"BASIC begins by {found!r}")


def tell(machine, line, answer):
    """Types a line to a prompt, and compares its echo, its answer and the next prompt."""
    machine.type(line + "\r")
    expect(machine, f"{line}\r\n{answer}> ", line)


class P11(machines.P11):
    """p11 in BASIC, from a pack."""

    def __init__(self, program, pack=PACK, access="rw", settings=()):
        super().__init__(program, pack, access, settings)
        in_basic(self)

    def pack(self, name):
        """The pack as it is now, saved into a file."""
        if self.ask(f"save 0 {name}") != "OK":
            raise Differs("the pack can't be saved")
        with open(name, "rb") as file:
            return file.read()


class Simh(machines.Simh):
    """SIMH in BASIC."""

    def __init__(self, program, pack, folder):
        super().__init__(program, pack, folder)
        found = self.answer("shows this again." + PROMPT)
        if MENU not in found:
            raise Differs(f"in SIMH the boot types {found!r}")
        self.typed = found[found.index(MENU):]
        in_basic(self)

    def end(self):
        """SIGINT stops the machine, as Ctrl-E does at its own terminal, and SIMH's script ends."""
        self.console.send_signal(signal.SIGINT)
        self.answer("Goodbye\r\n")
        os.close(self.keys)
        self.console.terminate()
        self.console.wait()
