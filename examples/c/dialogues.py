"""dialogues.py LIBRARY: holds the dialogues of tests/rattle/p11_talks by the class Console of python/p11, and compares
what is shown, said and recorded, the history's lines, the requests and the status with what is written there. Then a machine of
its own does the lines of the record, and comes to the registers and devices that the console tells.

How a row reads is said in tests/rattle/p11_talks/src/dialogues.rt.txt. Left out: the dialogues in which memory or a store fails, which
want an allocator and a store of Rattle. Exit status 1: a dialogue comes to something else; its first difference is printed.
"""
import ctypes
import os
import re
import sys

sys.dont_write_bytecode = True
TOP = os.path.join(os.path.dirname(os.path.realpath(__file__)), "..", "..")
sys.path.append(os.path.join(TOP, "python"))
os.environ["P11_LIBRARY"] = sys.argv[1]
from p11 import Machine, console as p11  # noqa: E402 (the path is set first)

DATA = os.path.join(TOP, "tests/rattle/p11_talks/data/dialogues.txt")
KEYS = {
    "Up": b"\033[A", "Down": b"\033[B", "Right": b"\033[C", "Left": b"\033[D", "Home": b"\033[H", "End": b"\033[F",
    "Delete": b"\033[3~", "Backspace": b"\177", "Tab": b"\t", "Return": b"\r", "Esc": b"\033", "Brace": b"{",
}
MANNERS = {"terminal": p11.TYPED, "batch": p11.BATCH}
FLAGS = {"talk": "talk", "strict": "strict", "no-save": "saveless"}
SHOWN = {"?": ("screen", b"\n"), "/": ("screen", b""), "!": ("errors", b"\n")}
NOTED = {":": "record", "~": "past", "$": "requests"}
MOST_STEPS = 1_000_000


def plain(text):
    return re.sub(r"\\([0-7]{3})", lambda found: chr(int(found[1], 8)), text).encode("latin-1")


def spelled(text):
    """The bytes of a text with keys by name, control characters and repetitions in braces."""
    def braced(name):
        times, star, part = name.partition("*")
        if star:
            return plain(part) * int(times)
        return bytes([ord(name[5]) & 0o37]) if name.startswith("Ctrl-") else KEYS[name]
    first, *pieces = text.split("{")
    return plain(first) + b"".join(braced(name) + plain(rest) for name, _, rest in (piece.partition("}") for piece in pieces))


class Talk:
    """A dialogue that is written down."""

    def __init__(self, name):
        self.name, self.events, self.ways, self.flags, self.earlier = name, [], {}, {}, []
        self.manner, self.is_ended, self.is_left_out = p11.GIVEN, False, False
        self.wanted = {output: b"" for output in ("screen", "errors", "record", "past", "requests")}

    def way(self, word, rest):
        if word in MANNERS:
            self.manner = MANNERS[word]
        elif word in FLAGS:
            self.flags[FLAGS[word]] = True
        elif word == "past":
            self.earlier.append(spelled(rest))
        elif word in ("heap", "refused"):
            self.is_left_out = True
        elif word == "ends":
            self.is_ended = True
        else:
            self.ways[word] = rest


def talks_of(lines):
    """The dialogues, each with the files that are there in it."""
    files, talk = {}, None
    for line in lines:
        kind, rest = line[:1], line[2:]
        word, _, more = rest.partition(" ")
        if kind == "=":
            if talk:
                yield talk, dict(files)
            talk = Talk(rest)
        elif kind == "&":
            files[word] = files.get(word, b"") + spelled(more) + b"\n"
        elif kind == "@":
            times, *held = more.split()
            files[word] = files.get(word, b"") + int(times) * bytes(int(byte, 16) for byte in held)
        elif kind == "%":
            talk.way(word, more)
        elif kind == "<":
            talk.events.append((None, spelled(rest)))
        elif kind == "+":
            talk.events.append((int(word), spelled(more)))
        elif kind == "^":
            talk.events.append((None, rest))
        elif kind in SHOWN:
            output, end = SHOWN[kind]
            talk.wanted[output] += spelled(rest) + end
        elif kind in NOTED:
            talk.wanted[NOTED[kind]] += rest.encode() + b"\n"
    yield talk, dict(files)


class Sitting:
    """Who holds a dialogue, and the files of its host."""

    def __init__(self, library, talk, files):
        self.talk, self.files, self.written, self.since, self.events = talk, files, set(), 0, list(talk.events)
        self.came = dict.fromkeys(talk.wanted, b"")
        self.console = p11.Console(library, talk.manner, **talk.flags)
        self.console.resized(int(talk.ways.get("columns", 80)))
        for line in talk.earlier:
            self.console.remember(line)
        if "script" in talk.ways:
            self.console.open(talk.ways["script"].encode())

    def hold(self):
        """What the dialogue came to; its status is among that."""
        for _ in range(MOST_STEPS):
            while self.events and self.events[0][0] is not None and self.events[0][0] <= self.since:
                self.give()
            self.since += 1
            want = self.console.step(int(self.talk.ways.get("slice", 1_000_000)))
            for output in ("screen", "errors", "record", "past"):
                self.came[output] += getattr(self.console, output)()
            if want == p11.END:
                break
            if want in (p11.KEYS, p11.IDLE):
                self.give() if self.events else self.console.closed()
            elif want != p11.STEP:
                self.answer(want)
        self.came["status"] = self.console.status()
        self.came["machine"] = self.console.regs(), self.console.devices()
        self.console.drop()
        return self.came

    def give(self):
        _, event = self.events.pop(0)
        self.since = 0
        if event == "tick":
            self.console.ticked()
        elif event == "redraw":
            self.console.redrawn()
        elif event:
            self.console.keys(event)
        else:
            self.console.paused()
        if self.talk.is_ended and not self.events:
            self.console.closed()

    def answer(self, want):
        if want == p11.NAMES:
            front = self.console.front()
            self.note(b"names " + front)
            return self.console.names(name for name in map(str.encode, self.files) if name.startswith(front))
        name = self.console.name()
        if want == p11.FETCH:
            self.note(b"fetch " + name)
            held = self.files.get(name.decode())
            return self.console.missed(p11.MISSING) if held is None else self.console.fetched(held)
        may_replace, _ = self.console.request()
        if not may_replace and name not in self.written and name.decode() in self.files:
            self.note(b"put " + name + b", which is there")
            return self.console.put(p11.THERE)
        self.note(b"put " + name)
        self.files[name.decode()] = self.console.image()
        self.written.add(name)
        return self.console.put()

    def note(self, request):
        self.came["requests"] += request + b"\n"


def replayed(record, files):
    """Registers and devices of a new machine that has done the lines of a record."""
    with Machine() as machine:
        for line in record.decode("ascii").splitlines():
            word, *words = line.split(" ")
            if word == "mount":
                machine.mount(int(words[0], 8), files[words[1]], words[2] == "rw")
            elif word == "load":
                machine.load(files[words[0]])
            elif word == "save":
                files[words[1]] = machine.pack(int(words[0], 8))
            else:
                machine.line(line)
        return machine.regs, machine.line("device")


def differs(talk, files, came):
    """The first output that isn't as it is written, or None."""
    wanted = talk.wanted | {"status": int(talk.ways.get("status", 0)), "machine": replayed(came["record"], files)}
    if not wanted["past"]:
        del wanted["past"]
    return next((f"{output}: {came[output]!r}, and not {held!r}" for output, held in wanted.items() if came[output] != held), None)


library = ctypes.CDLL(os.path.abspath(sys.argv[1]))
with open(DATA, encoding="ascii") as data:
    talks = [(talk, files) for talk, files in talks_of(data.read().split("\n")) if not talk.is_left_out]
wrong = [f"{talk.name}: {found}" for talk, files in talks if (found := differs(talk, files, Sitting(library, talk, dict(files)).hold()))]
print("\n".join(wrong or [f"{len(talks)} dialogues by the class Console, each record once more"]))
sys.exit(1 if wrong else 0)
