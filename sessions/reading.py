"""Reads the sessions of a file: scripts for the console, with the answers that their lines are to have.

The first characters of a line say what it is:

- none, or `#`: nothing.
- `= NAME` begins an example.
- `> LINE`: a line of its script; `> LINE; LINE` two, and so on. Any other line is an answer to the script's line above it, and
  a script's line with none below it is answered `OK`.
- `@ NAME TIMES BYTES..`: a file that sessions find from here on, of these hexadecimal bytes, so many times over.
- `& NAME TIMES BYTES..`: a file that the example's session leaves; of several such lines with one name each adds its bytes.
- `! K`: from this example on machines have K thousand (1,024) words of memory, and else 28. It stands below the example's
  name: the example above is complete only where the next one begins.
- `~LINE`: a line of the outline, one for many examples. `$a`, `$b` and so on in it stand for the cells of a row, and its line
  `.` for the lines of an example.
- `| CELLS`: a session of the outline, with these cells and the lines of the example above it.
"""
import glob
import os
import re
from dataclasses import dataclass

# The files of the project's sessions.
FILES = sorted(glob.glob(os.path.join(os.path.dirname(os.path.realpath(__file__)), "*.txt")))


class BadLine(Exception):
    """A file, its line, and why none of the rules above reads it."""


@dataclass
class Step:
    """A line of a script, and the lines that are to answer it."""

    line: str
    answer: list


@dataclass
class Session:
    """The line of the file where it begins, its name, thousands of words of memory, the files that it finds and leaves, by
    their names, and its steps."""

    at: int
    name: str
    kwords: int
    files: dict
    left: dict
    steps: list

    def script(self):
        return "".join(step.line + "\n" for step in self.steps)

    def answers(self):
        return "".join(line + "\n" for step in self.steps for line in step.answer)

    def flushed(self):
        """The same session with `flush` after each line."""
        steps = [each for step in self.steps for each in (step, Step("flush", ["OK"]))]
        return Session(self.at, self.name, self.kwords, self.files, self.left, steps)


def number(text):
    if not text.isdecimal():
        raise BadLine(f"no number: {text}")
    return int(text)


def file_of(text):
    name, _, rest = text.partition(" ")
    times, _, data = rest.partition(" ")
    try:
        return name, bytes.fromhex(data) * number(times)
    except ValueError:
        raise BadLine(f"no hexadecimal bytes: {data}") from None


def steps_of(lines):
    steps = []
    for line in lines:
        if line.startswith("> "):
            steps += [Step(command, []) for command in line[2:].split("; ")]
        elif steps:
            steps[-1].answer.append(line)
        else:
            raise BadLine(f"an answer above the first line of a script: {line}")
    for step in steps:
        step.answer = step.answer or ["OK"]
    return steps


def filled(line, cells):
    """A line with these cells in the place of `$a`, `$b` and so on."""
    parts = re.split(r"\$(.?)", line)
    for at in range(1, len(parts), 2):
        letter = parts[at]
        if not letter or not 0 <= ord(letter) - ord("a") < len(cells):
            raise BadLine(f"the row has no cell ${letter}")
        parts[at] = cells[ord(letter) - ord("a")]
    return "".join(parts)


class Reader:
    """What the lines read so far leave for those below them."""

    def __init__(self):
        self.kwords = 28
        self.files = {}
        self.outline = []
        self.is_outlining = False
        self.at = 0
        self.begin("")

    def begin(self, name):
        self.begun = self.at
        self.name = name
        self.own = []
        self.left = {}
        self.has_rows = False

    def take(self, line):
        """Reads the next line; the sessions that are complete with it."""
        self.at += 1
        was_outlining, self.is_outlining = self.is_outlining, False
        if not line or line.startswith("#"):
            pass
        elif line.startswith("~"):
            self.is_outlining = True
            if not was_outlining:
                yield from self.finish()
                self.begin("")
                self.outline = []
            self.outline.append(line[1:])
        elif line.startswith("| "):
            yield self.row(line[2:])
        elif line.startswith("= "):
            yield from self.finish()
            self.begin(line[2:])
        elif line.startswith("@ "):
            name, data = file_of(line[2:])
            self.files = {**self.files, name: data}
        elif line.startswith("& "):
            name, data = file_of(line[2:])
            self.left[name] = self.left.get(name, b"") + data
        elif line.startswith("! "):
            self.kwords = number(line[2:])
        else:
            self.own.append(line)

    def session(self, at, name, lines):
        return Session(at, name, self.kwords, self.files, dict(self.left), steps_of(lines))

    def row(self, row):
        self.has_rows = True
        cells = row.split()
        lines = [line for at in self.outline for line in (self.own if at == "." else [at])]
        return self.session(self.at, f"{self.name}: {row}" if self.name else row, [filled(line, cells) for line in lines])

    def finish(self):
        """The last example, if it is no outline's."""
        if self.own and not self.has_rows:
            yield self.session(self.begun, self.name, self.own)


def sessions(path):
    """The sessions of a file, one after another."""
    reader = Reader()
    with open(path, encoding="ascii", errors="backslashreplace", newline="\n") as text:
        lines = text.read().split("\n")
    try:
        for line in lines:
            yield from reader.take(line)
        yield from reader.finish()
    except BadLine as wrong:
        raise BadLine(f"{path}, line {reader.at}: {wrong}") from None


def all_sessions():
    """The project's sessions, file by file."""
    for path in FILES:
        yield from sessions(path)
