"""A machine that is kept, with its registers, memory, keys and drives as calls (the lines of docs/OPERATOR.md)."""
import array
import ctypes
import functools
import threading
from ctypes import addressof
from typing import Any, Callable, Iterable, List, NamedTuple, Optional, TypeVar, Union, cast, overload

from . import library
from .library import BAD_SIZE, DONE, NO_FILE, TOO_MANY, TOO_SMALL, Failed, Handle, InUse, RegistersTold, Run, status_failed, whole

# The bytes of a file, as callers have them.
Held = Union[bytes, bytearray, memoryview]
MARKS = ("ready", "waiting", "halted")
REASONS = ("halt", "turns", "idle", "memory", "address")
MOST = 100_000_000
# The words that a line of the console examines at most.
MOST_WORDS = 512
# The name that the calls below have for a file of theirs in the machine's store.
OWN = "(own)"
# The usual loader of a pack: it reads the first sectors of drive 0 to 0, and goes there.
LOADER = (0o12700, 0o177406, 0o12710, 0o177400, 0o12740, 5, 0o105710, 0o100376, 0o5007)
NUMBERS = dict(r0=0, r1=1, r2=2, r3=3, r4=4, r5=5, sp=0o6, ksp=0o6, usp=0o10, pc=0o7, ps=0o11)
# The number of no register.
NONE = 0o77
TEXTS = {
    1: "there are the drives 0 to 7", 2: "the drive is empty", 3: "the drive has a pack; unmount it first",
    4: "the image has more than 2,494,464 bytes", 5: "an address of a word is even",
    6: "nothing answers at this address", 7: "the drive is busy; let the machine make some turns",
    8: "64 keys wait; let the machine take some", 9: "these bytes are no absolute tape", 10: "512 words at most, and on the I/O page one",
    11: "there is no such register; there are r0 to r5, sp or ksp, usp, pc, ps", 12: "there is no memory for it",
    13: "this is no line of the console", 14: "there is no such file",
}

BAD_LINE = 13
# What it means where a call has made the line.
OUT_OF_RANGE = "addresses are 0 to 0o777777, words 0 to 0o177777, drives 0 to 7, counts 1 to 999,999,999, and 64 keys wait at most"


class Refused(ValueError):
    """A call that was refused: the `call` as it was made, the refusal's `number` and `name`, and the `line` of the console that was
    refused for it, which has changed nothing."""

    def __init__(self, call: str, line: str, number: int, name: str):
        text = OUT_OF_RANGE if number == BAD_LINE and call != line else TEXTS.get(number, "")
        super().__init__(f"{call if len(call) <= 60 else call[:58] + '..'}: {number} {name}: {text}")
        self.call, self.line, self.number, self.name = call, line, number, name


class Stop(NamedTuple):
    """How a run ended: `halt`, `turns` (all are made), `idle`, `memory`, or `address` (of `steps_until`); how many turns it made; PC."""
    reason: str
    turns: int
    pc: int

    def __repr__(self) -> str:
        return f"Stop({self.reason!r}, turns={self.turns}, pc=0o{self.pc:06o})"


class Registers(NamedTuple):
    """The registers: R0 to R5, the stack pointers of kernel and user mode, PC, the status word, SR0 and SR2 of memory management;
    the turns since the machine was made; and whether it's ready, waiting or halted."""
    r0: int
    r1: int
    r2: int
    r3: int
    r4: int
    r5: int
    ksp: int
    usp: int
    pc: int
    ps: int
    sr0: int
    sr2: int
    turns: int
    mark: str

    def __repr__(self) -> str:
        words = ", ".join(f"{name}=0o{word:06o}" for name, word in zip(self._fields[:12], self))
        return f"Registers({words}, turns={self.turns}, mark={self.mark!r})"


def registers_of(it: RegistersTold) -> Registers:
    words = [*it.general, it.kernel_sp, it.user_sp, it.pc, it.status, it.status_0, it.status_2]
    return Registers._make([*words, it.turns, MARKS[it.mark]])


Call = TypeVar("Call", bound=Callable[..., Any])


def alone(call: Call) -> Call:
    """A call of a machine that is refused while another thread is in one of that machine."""
    @functools.wraps(call)
    def guarded(self: "Machine", *words: Any, **named: Any) -> Any:
        if not self._owner.acquire(blocking=False):
            raise InUse
        try:
            return call(self, *words, **named)
        finally:
            self._owner.release()
    return cast(Call, guarded)


class Machine:
    """A PDP-11/40 with `kwords` thousands (1,024) of words of memory, 4 to 124 in steps of 4, which keeps up to `lines` decoded
    instructions. Closed at the end of a `with`, or by `close`."""

    def __init__(self, kwords: int = 28, lines: int = 1024):
        self._p11, self._owner = library.load(), threading.RLock()
        self._handle, self._told = Handle(), Run()
        self._typed: Optional[bytes] = b""
        self._run, self._make_turns = addressof(self._told), self._p11.p11_run
        sizes = whole(kwords, BAD_SIZE), whole(lines, BAD_SIZE)
        self._at = addressof(self._handle)
        self._done(self._p11.p11_new(*sizes, b"", 0, self._at))

    def __enter__(self) -> "Machine":
        return self

    def __exit__(self, *_: object) -> None:
        self.close()

    def __del__(self) -> None:
        if hasattr(self, "_at"):
            self.close()

    @alone
    def close(self) -> None:
        """Frees the machine; every call but this one fails from then on."""
        self._p11.p11_drop(self._at)

    @staticmethod
    def _done(status: int) -> None:
        if status != DONE:
            raise status_failed(status)

    def _handed(self, call: Callable[..., int], *words: Union[bytes, int]) -> bytes:
        """What a call hands out, in a buffer that has just the room for it."""
        length, status = ctypes.c_size_t(), TOO_SMALL
        while status == TOO_SMALL:
            out = ctypes.create_string_buffer(length.value + 1)
            status = call(self._at, *words, out, length.value, addressof(length))
        self._done(status)
        return out.raw[:length.value]

    @alone
    def line(self, line: str) -> str:
        """Does a line of the console, and gives the text of its answer."""
        return self._do(line, line)

    def _do(self, line: str, call: str) -> str:
        """Does a line for a call, which is named where the line is refused."""
        typed = self.typed
        text = line.encode("latin-1")
        self._done(self._p11.p11_line(self._at, text, len(text)))
        answer = self._handed(self._p11.p11_answer).decode("latin-1")
        self._typed = None if "TTY " in answer or "STOP " in answer else typed
        if answer.startswith("?"):
            _, number, name = answer.split()[:3]
            raise Refused(call, line, int(number), name)
        return answer

    @alone
    def deposit(self, address: int, *words: Union[int, Iterable[int]]) -> None:
        """Writes words from an address on: numbers, or what gives numbers; 64 a line, so a refusal leaves those of the lines before."""
        row = [word for part in words for word in ([part] if isinstance(part, int) else part)]
        call = f"deposit({address:#o}, ..)"
        for at in range(0, len(row), 64):
            line = f"deposit {address + 2 * at:o} " + " ".join(f"{word:o}" for word in row[at:at + 64])
            self._do(line, f"{call}, from {address + 2 * at:#o} on" if at else call)

    @overload
    def examine(self, address: int) -> int: ...

    @overload
    def examine(self, address: int, count: int) -> List[int]: ...

    @alone
    def examine(self, address: int, count: Optional[int] = None) -> Union[int, List[int]]:
        """The word at an address; with a count the words from it on, as a list, however many; 512 a line."""
        if count is None:
            return self._words(address, 1, f"examine({address:#o})")[0]
        call, words = f"examine({address:#o}, {count})", []
        for at in range(0, max(count, 1), MOST_WORDS):
            words += self._words(address + 2 * at, min(count - at, MOST_WORDS), f"{call}, from {address + 2 * at:#o} on" if at else call)
        return words

    def _words(self, address: int, count: int, call: str) -> List[int]:
        """Words that a line examines."""
        return [int(line.split()[2], 8) for line in self._do(f"examine {address:o} {count}", call).splitlines()]

    @alone
    def set(self, **registers: int) -> None:
        """Sets registers by their names: r0 to r5, sp (or ksp), usp, pc, ps."""
        for name, word in registers.items():
            self._do(f"set {NUMBERS.get(name, NONE):o} {word:o}", f"set({name}={word:#o})")

    @alone
    def start(self, address: int) -> None:
        """Resets the devices, and puts PC to an address; `step` and `run` go on from there."""
        self._do(f"start {address:o}", f"start({address:#o})")

    @alone
    def step(self, turns: int = 1) -> Stop:
        """Makes so many turns, or fewer if the machine halts."""
        return self._made(turns, 0)

    @alone
    def steps_until(self, addresses: Iterable[int], most: int = MOST) -> Stop:
        """Makes turns one by one, as `step` does, until PC is one of the addresses behind a turn (`address`), the machine halts, or
        `most` turns are made. What was typed is that of the last turn."""
        row = array.array("H", addresses) if not isinstance(addresses, array.array) else addresses
        status = self._p11.p11_steps_until(self._at, row.tobytes(), len(row), whole(most, TOO_MANY), self._run)
        self._done(status)
        self._typed = None
        return Stop(REASONS[self._told.reason], self._told.turns, self._told.pc)

    @alone
    def run(self, turns: int = MOST) -> Stop:
        """Makes turns until the machine halts or idles, or so many are made."""
        return self._made(turns, 1)

    def _made(self, turns: int, until_idle: int) -> Stop:
        if turns > MOST:
            return self._made_in_parts(turns, until_idle)
        if turns < 0:
            raise status_failed(TOO_MANY)
        status = self._make_turns(self._at, turns, until_idle, self._run)
        if status:
            raise status_failed(status)
        self._typed = None
        told = self._told
        return Stop(REASONS[told.reason], told.turns, told.pc)

    def _made_in_parts(self, turns: int, until_idle: int) -> Stop:
        made, typed = 0, b""
        while True:
            stop = self._made(min(turns - made, MOST), until_idle)
            made += stop.turns
            typed += self.typed
            self._typed = typed
            if made == turns or stop.reason != "turns":
                return Stop(stop.reason, made, stop.pc)

    @property
    @alone
    def typed(self) -> bytes:
        """What was typed on the machine's terminal in the last run."""
        if self._typed is None:
            self._typed = self._handed(self._p11.p11_typed_text)
        return self._typed

    @property
    @alone
    def regs(self) -> Registers:
        """The registers, with no effect on the machine."""
        it = RegistersTold()
        self._done(self._p11.p11_regs(self._at, addressof(it)))
        return registers_of(it)

    @alone
    def key(self, text: Union[str, bytes]) -> None:
        """Presses keys: the line ends by "\\r" on this machine. It takes one every 64 turns at most, and 64 wait."""
        keys = text.encode("latin-1") if isinstance(text, str) else text
        if keys:
            self._do("key " + "".join(f"\\{key:03o}" for key in keys), f"key({text!r})")

    @property
    @alone
    def keys_waiting(self) -> int:
        """How many keys wait."""
        count = ctypes.c_uint32()
        self._done(self._p11.p11_keys_waiting(self._at, addressof(count)))
        return count.value

    @alone
    def mount(self, drive: int, image: Held = b"", write: bool = True) -> None:
        """Mounts a pack of these bytes, which are the machine's own from then on; fewer than an RK05 has are filled with zeros."""
        self._with_file(f"mount {drive:o} {OWN} {'rw' if write else 'ro'}", image, f"mount({drive}, ..)")

    @alone
    def unmount(self, drive: int) -> None:
        """Takes a pack out; what `pack` didn't give is lost."""
        self._do(f"unmount {drive:o}", f"unmount({drive})")

    @alone
    def load(self, tape: Held) -> Optional[int]:
        """Loads an absolute paper tape: its start address, if it has one."""
        start = self._with_file(f"load {OWN}", tape, "load(..)").split()[2]
        return None if start == "none" else int(start, 8)

    @alone
    def boot(self) -> None:
        """Starts the pack on drive 0 by the usual loader; `run` and `step` go on."""
        self.deposit(0o1000, LOADER)
        self.start(0o1000)

    @alone
    def pack(self, drive: int) -> bytes:
        """The whole pack on a drive as it is now, 2,494,464 bytes."""
        self._do(f"save {drive:o} {OWN}", f"pack({drive})")
        held = self.file(OWN)
        self._forget()
        return held or b""

    @alone
    def changed(self, drive: int) -> List[int]:
        """The sectors that were written since the mount, in the order of their first writes."""
        return [int(number) for number in self._do(f"changed {drive:o}", f"changed({drive})").split()[2:]]

    @alone
    def script(self, lines: Union[str, bytes]) -> bytes:
        """Does lines of the console as p11 does a script, and gives the text of their answers; a refused one is among these.
        Lines that name files find those of `put_file`, and leave those that `file` gives."""
        text = lines.encode("latin-1") if isinstance(lines, str) else lines
        self._done(self._p11.p11_line(self._at, text, len(text)))
        self._typed = None
        return self._handed(self._p11.p11_answer)

    @alone
    def put_file(self, name: str, held: Held) -> None:
        """Puts a file where lines of the console find it by its name."""
        word = name.encode("latin-1")
        if not isinstance(held, bytes):
            held = bytes(memoryview(held))
        self._done(self._p11.p11_put_file(self._at, word, len(word), held, len(held)))

    @alone
    def file(self, name: str) -> Optional[bytes]:
        """The file of a name as it was put or saved last, if there is one."""
        word = name.encode("latin-1")
        try:
            return self._handed(self._p11.p11_file, word, len(word))
        except Failed as cause:
            if cause.number != NO_FILE:
                raise
            return None

    def _with_file(self, line: str, held: Held, call: str) -> str:
        """Does a line that takes a file from the machine's store, for a call."""
        self.put_file(OWN, held)
        try:
            return self._do(line, call)
        finally:
            self._forget()

    def _forget(self) -> None:
        self._done(self._p11.p11_forget(self._at, OWN.encode(), len(OWN)))
