"""The console of a dialogue, over the library for C: it is given events, and gives bytes and requests (docs/LIBRARY.md).

A host gives keys, makes steps, writes what `screen`, `record`, `past` and `errors` give, and answers what a step wants.
"""
import ctypes
import threading
from typing import Iterable, Optional, Tuple

from .library import InUse, RegistersTold
from .machine import Held, Registers, registers_of

TYPED, GIVEN, BATCH = range(3)
STEP, KEYS, IDLE, MEMORY, FETCH, PUT, NAMES, END = range(8)
WRITTEN, THERE, MISSING, DENIED, FOLDER, PATH, LONG, NO_MEMORY, FAULT = range(9)
DONE, BAD_SIZE, TOO_SMALL, NO_FILE, TOO_MANY = 0, 2, 4, 7, 8
STATUSES = {
    1: "there is no memory for it", 2: "no machine has these sizes, or no dialogue this manner", 6: "the console is dropped",
    7: "the console wants no file", 8: "no run has so many turns",
}
TAKING = {"screen": "shown", "record": "recorded", "past": "kept"}
ROOM = 65536


class Handle(ctypes.Structure):
    """What holds a console or none."""
    _fields_ = [("at", ctypes.c_void_p), ("consoles", ctypes.c_uint32)]


class Refused(ValueError):
    """A call that wasn't done: `call`, the name of p11_console_ that it has in C, and `status`, the number that this answers."""

    def __init__(self, call: str, status: int) -> None:
        super().__init__(f"p11_console_{call}: status {status}: {STATUSES.get(status, 'examples/c/pdp1140.h has it')}")
        self.call, self.status = call, status


def word32(call: str, number: int, status: int) -> int:
    """A number that an argument of 32 bits takes; another is refused as the library would refuse it."""
    if not 0 <= number < 1 << 32:
        raise Refused(call, status)
    return number


class Console:
    """A console over a new machine. `library` is the library for C, as ctypes loads it.

    `manner`: TYPED, where a person types the lines; GIVEN, where a program gives them; BATCH, where a script is all. The other
    words are those of `p11_console_new` in examples/c/pdp1140.h. A call that isn't done raises Refused, and changes nothing.
    """

    def __init__(self, library: ctypes.CDLL, manner: int = GIVEN, kwords: int = 28, lines: int = 1024, strict: bool = False,
                 saveless: bool = False, talk: bool = False) -> None:
        self.p11, self.handle, self.owner = library, Handle(), threading.Lock()
        sizes = (word32("new", number, BAD_SIZE) for number in (kwords, lines, manner))
        status = library.p11_console_new(*sizes, int(strict), int(saveless), int(talk), ctypes.byref(self.handle))
        if status != DONE:
            raise Refused("new", status)

    def status_of(self, call: str, *words: object) -> int:
        if not self.owner.acquire(blocking=False):
            raise InUse
        try:
            status: int = getattr(self.p11, "p11_console_" + call)(ctypes.byref(self.handle), *words)
            return status
        finally:
            self.owner.release()

    def done(self, call: str, *words: object) -> None:
        status = self.status_of(call, *words)
        if status != DONE:
            raise Refused(call, status)

    def give(self, call: str, held: Held) -> None:
        self.done(call, bytes(held), ctypes.c_size_t(len(held)))

    def number(self, call: str) -> int:
        found = ctypes.c_uint32()
        self.done(call, ctypes.byref(found))
        return found.value

    def front_of(self, output: str) -> bytes:
        """All bytes of an output, which are taken."""
        out, length, found = ctypes.create_string_buffer(ROOM), ctypes.c_size_t(1), []
        while length.value:
            self.done(output, out, ctypes.c_size_t(ROOM), ctypes.byref(length))
            found.append(out.raw[:length.value])
            self.done(TAKING[output], ctypes.c_size_t(length.value))
        return b"".join(found)

    def whole(self, call: str) -> Optional[bytes]:
        """What a call hands out whole; None: there is none."""
        length, status = ctypes.c_size_t(), TOO_SMALL
        while status == TOO_SMALL:
            out = ctypes.create_string_buffer(length.value + 1)
            status = self.status_of(call, out, ctypes.c_size_t(length.value), ctypes.byref(length))
        if status not in (DONE, NO_FILE):
            raise Refused(call, status)
        return out.raw[:length.value] if status == DONE else None

    # Events.

    def open(self, name: Held) -> None:
        """The lines of the file of this name come first."""
        self.give("open", name)

    def remember(self, line: Held) -> None:
        """A line of an earlier dialogue, for the history."""
        self.give("remember", line)

    def keys(self, held: Held) -> None:
        self.give("keys", held)

    def closed(self) -> None:
        """No key comes any more."""
        self.done("closed")

    def paused(self) -> None:
        """The keyboard has nothing more for now."""
        self.done("paused")

    def ticked(self) -> None:
        """The line clock ticks."""
        self.done("ticked")

    def resized(self, columns: int) -> None:
        self.done("resized", ctypes.c_size_t(word32("resized", columns, TOO_MANY)))

    def redrawn(self) -> None:
        """The line that is typed is to be shown again."""
        self.done("redrawn")

    def step(self, turns: int = 1_000_000) -> int:
        """Does one thing, in a run at most so many turns; what the console wants then, STEP to END."""
        want = ctypes.c_uint32()
        self.done("step", ctypes.c_uint32(word32("step", turns, TOO_MANY)), ctypes.byref(want))
        return want.value

    # Outputs: bytes, which are taken.

    def screen(self) -> bytes:
        return self.front_of("screen")

    def record(self) -> bytes:
        return self.front_of("record")

    def past(self) -> bytes:
        """Lines for the history's file."""
        return self.front_of("past")

    def errors(self) -> Optional[bytes]:
        """What is said of a script that is all, for the standard error."""
        found = self.whole("errors")
        self.done("told")
        return found

    # Requests, and their answers.

    def name(self) -> Optional[bytes]:
        """The name of the file that is wanted or to be written, or None."""
        return self.whole("name")

    def image(self) -> Optional[bytes]:
        """The bytes that it is to have, or None."""
        return self.whole("image")

    def front(self) -> Optional[bytes]:
        """The word with which the names have to begin that are wanted."""
        return self.whole("front")

    def request(self) -> Tuple[bool, bool]:
        """Whether the file to be written may be there already, and whether the one that is wanted is a pack's."""
        replace, pack = ctypes.c_uint32(), ctypes.c_uint32()
        self.done("request", ctypes.byref(replace), ctypes.byref(pack))
        return bool(replace.value), bool(pack.value)

    def fetched(self, held: Held) -> None:
        self.give("fetched", held)

    def missed(self, trouble: int) -> None:
        """There are no bytes of the file: MISSING to FAULT."""
        self.done("missed", ctypes.c_uint32(word32("missed", trouble, BAD_SIZE)))

    def put(self, trouble: int = WRITTEN) -> None:
        """What became of the file: WRITTEN, THERE, or why it can't be written."""
        self.done("put", ctypes.c_uint32(word32("put", trouble, BAD_SIZE)))

    def names(self, names: Iterable[bytes]) -> None:
        """Names of files, those of folders with a slash behind them."""
        self.give("names", b"\0".join(names))

    # What there is to know.

    def status(self) -> int:
        """The exit status of a program that holds this dialogue, once it is over."""
        return self.number("status")

    def regs(self) -> Registers:
        """The machine's registers (p11.Registers), with no effect on it."""
        told = RegistersTold()
        self.done("regs", ctypes.byref(told))
        return registers_of(told)

    def devices(self) -> str:
        """The lines that `device` answers: the clock, the console line, the disk, each drive, memory management."""
        return (self.whole("devices") or b"").decode("ascii")

    def drop(self) -> None:
        self.p11.p11_console_drop(ctypes.byref(self.handle))
