"""A model of the small system's shell and commands over a dictionary of files, random lines for it, and the machine that they
are typed to. tests/system and soak/system use it."""
import os
import random
import re
import sys

TOP = os.path.join(os.path.dirname(os.path.abspath(__file__)), "..")
sys.path[:0] = [os.path.join(TOP, "soak"), os.path.join(TOP, "examples", "system")]
import forth_machines as machines  # noqa: E402 (the folders are known only now)
import fs  # noqa: E402

PROMPT = "$ "
HELLO = "A small system\r\n"
NO_FILE = "there is no such file"
NO_ROOM = "memory has no room for it; ps shows who has it"
TOO_LONG = "it is too long: a file has up to 65535 bytes, a command 99"
# the machine of most tests, and how many pages of it are free beside the shell and df
LARGE, PAGES = ("--memory", "124"), 26
# as sort.mac and lib.mac have it: from where to where sort keeps lines
SORT_TOP = 0o36000


class Differs(Exception):
    """Something isn't as it has to be."""


class Stopped(Exception):
    """A command has told its error, and is over."""


class Typist:
    """Types lines to the shell. `until` is what ends an answer; None: that the machine waits for a key."""

    def line(self, text):
        """The answer to a line, without its echo and the next prompt."""
        self.type(text + "\r")
        found = self.answer(self.until)
        if not found.startswith(text + "\r\n") or not found.endswith(PROMPT):
            raise Differs(f"{text!r} is answered {found!r}")
        return found[len(text) + 2:-len(PROMPT)]

    def expect(self, line, wanted):
        """The answer to a line has to be this."""
        found = self.line(line)
        if found != wanted:
            raise Differs(f"{line}\n  has to type {wanted!r}\n  and typed   {found!r}")


class P11(Typist, machines.P11):
    """p11 with the system, at its prompt. Without a clock it idles while the shell waits for a line."""

    def __init__(self, program, pack, settings=LARGE, clock=0, access="rw"):
        super().__init__(program, pack, access, settings)
        if clock:
            self.ask(f"clock {clock}")
        self.until = PROMPT if clock else None
        self.hello = self.answer(PROMPT)

    def pack(self, name):
        """The pack as it is now, by way of a file."""
        if self.ask(f"save 0 {name}") != "OK":
            raise Differs("the pack can't be saved")
        return fs.read(name)


class Simh(Typist, machines.Simh):
    """SIMH with the system, at its prompt."""

    SETTINGS = [one.replace("64K", "256K") for one in machines.Simh.SETTINGS]
    until = PROMPT

    def __init__(self, program, pack, folder):
        super().__init__(program, pack, folder)
        found = self.answer(HELLO + PROMPT)
        if not found.endswith(HELLO + PROMPT):
            raise Differs(f"in SIMH the boot types {found!r}")

    def end(self):
        """The system stops, and SIMH's script ends, which writes the pack."""
        self.type("exit\r")
        self.answer("Goodbye\r\n")
        os.close(self.keys)
        self.console.wait()


def expression(pattern):
    """A pattern of grep as one of Python's."""
    found, rest = "^" * pattern.startswith("^"), pattern.removeprefix("^")
    while rest and rest != "$":
        many = rest[1:2] == "*"
        found += ("." if rest[0] == "." else re.escape(rest[0])) + "*" * many
        rest = rest[1 + many:]
    return re.compile(found + "$" * bool(rest))


def primes(limit):
    """What `primes` writes."""
    found = [f"{one:6}" for one in range(2, limit + 1) if all(one % low for low in range(2, int(one ** 0.5) + 1))]
    return "".join("".join(found[at:at + 10]) + "\n" for at in range(0, len(found), 10)).encode()


class Model:
    """The files by their names, in the directory's order, and what each command types."""

    def __init__(self, files):
        self.files = dict(files)
        self.slots = list(files) + [None] * (fs.ENTRIES - len(files))
        self.sort_begin = next(value for name, value in fs.assembled(["sys", "sort", "lib"], 0).symbols.table()
                               if name == "MEMORY")

    def put(self, name, data):
        if name not in self.files:
            self.slots[self.slots.index(None)] = name
        self.files[name] = data

    def remove(self, name):
        self.slots[self.slots.index(name)] = None
        del self.files[name]

    def rename(self, old, new):
        if old != new:
            if new in self.files:
                self.remove(new)
            self.slots[self.slots.index(old)] = new
            self.files[new] = self.files.pop(old)

    def free(self):
        return fs.BLOCKS - fs.FIRST - sum(map(fs.cost, self.files.values()))

    def answer(self, line):
        """What a line types, with line feeds alone; the files are as they are behind it."""
        self.typed = b""
        parts = [part.split() for part in line.split("|")]
        data = None
        for at, words in enumerate(parts):
            plain = [word for word in words if word[0] not in "<>"]
            source = [word[1:].encode() for word in words if word[0] == "<"]
            sink = [word[1:].encode() for word in words if word[0] == ">"]
            data = self.command(plain, source, sink, data, at == len(parts) - 1)
        return self.typed.decode("latin-1").replace("\n", "\r\n")

    def tell(self, text, name=b""):
        self.typed += (name + b": " if name else b"") + text.encode() + b"\n"

    def command(self, words, source, sink, data, is_last):
        """What a command gives to the next one; what it types is typed, and what it writes is in its file."""
        if source:
            if source[0] not in self.files:
                self.tell(NO_FILE, source[0])
                return b""
            data = self.files[source[0]]
        self.out, self.to_console = b"", is_last and not sink
        try:
            getattr(self, words[0])([word.encode() for word in words[1:]], data)
        except Stopped:
            sink = sink and [None]
        out = self.out
        if sink:
            if len(out) > fs.LONGEST:
                self.tell(TOO_LONG)
            elif sink[0] is not None:
                self.put(sink[0], out)
            return b""
        return out

    def write(self, data):
        self.out += data
        if self.to_console:
            self.typed += data

    def inputs(self, names, data):
        """The bytes of each file that is there, with its name; of the input, if none is named."""
        if not names:
            yield b"", data
        for name in names:
            if name in self.files:
                yield name, self.files[name]
            else:
                self.tell(NO_FILE, name)

    def echo(self, words, _data):
        self.write(b" ".join(words) + b"\n")

    def cat(self, names, data):
        for _, one in self.inputs(names, data):
            self.write(one)

    def wc(self, names, data):
        for name, one in self.inputs(names, data):
            words = len("".join(" " if byte <= 32 else "x" for byte in one).split())
            self.write(b"%6d%6d%6d" % (one.count(b"\n"), words, len(one)) + (b" " + name if name else b"") + b"\n")

    def sort(self, names, data):
        lines, begin, end = [], self.sort_begin, SORT_TOP
        for _, one in self.inputs(names, data):
            for line in re.findall(rb"[^\n]*\n|[^\n]+", one):
                end -= 2
                begin += len(line)
                if end - begin < 8:
                    self.tell(NO_ROOM)
                    raise Stopped
                begin += not line.endswith(b"\n")
                lines.append(line if line.endswith(b"\n") else line + b"\n")
        self.write(b"".join(sorted(lines)))

    def od(self, names, data):
        for _, one in self.inputs(names, data):
            even = one + bytes(len(one) % 2)
            words = ["%06o" % (even[at] | even[at + 1] << 8) for at in range(0, len(even), 2)]
            for at in range(0, len(words), 8):
                self.write(f"{2 * at:06o} {' '.join(words[at:at + 8])}\n".encode())
            self.write(b"%06o\n" % len(one))

    def grep(self, words, data):
        pattern = expression(words[0].decode())
        for name, one in self.inputs(words[1:], data):
            # a line in C ends at a 0, and has at most 255 bytes
            lines = [line[:255].split(b"\0")[0] for line in one.removesuffix(b"\n").split(b"\n") if one]
            found = [line for line in lines if pattern.search(line.decode("latin-1"))]
            self.write(b"".join((name + b": " if len(words) > 2 else b"") + line + b"\n" for line in found))

    def primes(self, words, _data):
        self.write(primes(int(words[0])))

    def cp(self, names, _data):
        old, new = names
        if old not in self.files:
            self.tell(NO_FILE, old)
        else:
            self.put(new, self.files[old])

    def mv(self, names, _data):
        old, new = names
        if old not in self.files:
            self.tell(NO_FILE, old)
        else:
            self.rename(old, new)

    def rm(self, names, _data):
        for name in names:
            if name in self.files:
                self.remove(name)
            else:
                self.tell(NO_FILE, name)

    def ls(self, _names, _data):
        for name in self.slots:
            if name is not None:
                self.write(b" %5d %s\n" % (len(self.files[name]), name))

    def df(self, _names, _data):
        self.write(b"%d of 4800 blocks, %d of 127 names, %d pages of memory are free\n"
                   % (self.free(), self.slots.count(None), PAGES))

    def fsck(self, _names, _data):
        self.write(b"%d files are right\n" % len(self.files))


class Lines:
    """Random lines, of which most mean something for the files that are there."""

    def __init__(self, seed, model):
        self.chance, self.model = random.Random(seed), model
        self.mine = [f"{letter}{number}" for letter in "abc" for number in range(5)]

    def file(self):
        """A file that is there, of those that may change; seldom one that isn't."""
        there = [name for name in self.mine if name.encode() in self.model.files]
        return self.chance.choice(there if there and self.chance.random() < 0.95 else self.mine)

    def any_file(self):
        return "help" if self.chance.random() < 0.1 else self.file()

    def into(self):
        return ">" + self.chance.choice(self.mine)

    def echo(self):
        letters = "abcdefghijklmnopqrstuvwxyz0123456789.,:-+/()"
        words = ["".join(self.chance.choices(letters, k=self.chance.randrange(1, 9)))
                 for _ in range(self.chance.randrange(1, 9))]
        return "echo " + " ".join(words)

    def line(self):
        one = self.chance.choice
        kind = self.chance.randrange(16)
        if kind < 3:
            return f"{self.echo()} {self.into()}"
        if kind < 5:
            return f"cat {' '.join(self.any_file() for _ in range(self.chance.randrange(1, 5)))} {self.into()}"
        if kind == 5:
            return f"cp {one(['sort', 'sh', self.file(), self.file()])} {one(self.mine)}"
        if kind == 6:
            return f"mv {self.file()} {one(self.mine)}"
        if kind == 7:
            return f"rm {' '.join(self.file() for _ in range(self.chance.randrange(1, 4)))}"
        if kind == 8:
            return one(["ls", "ls | wc", "ls | sort", "df", "fsck", self.echo(), f"cat {self.small()}"])
        if kind == 9:
            return f"wc {self.any_file()} {self.file()}"
        if kind == 10:
            return f"sort <{self.file()} {self.into()}"
        if kind == 11:
            return f"cat {self.file()} | {one(['sort', 'wc', 'od', 'cat'])} {self.into()}"
        if kind == 14:
            # no $ before a blank, which the prompt is
            return f"grep {one(['e', 'a.*b', '^[^a-e]', '[st]*', '$9', 'x*y.', '.'])} {self.any_file()} {self.file()} {self.into()}"
        if kind == 15:
            return f"primes {self.chance.randrange(500)} | grep {one(['7', '1.*3', '[0-9]'])} {self.into()}"
        if kind == 12:
            return f"cat {self.file()} | {one(['wc', 'sort | wc', 'od | wc'])}"
        return f"od {self.small()}"

    def small(self):
        """A file that isn't long, for the console."""
        there = [name for name in self.mine if 0 < len(self.model.files.get(name.encode(), b"")) < 300]
        return self.chance.choice(there) if there else "help"
