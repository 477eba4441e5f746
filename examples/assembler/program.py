"""An assembly: passes over the sources until each name stands for the same as before, and the bytes of the last one."""
import re

from .conditions import Conditions
from .dialects import Gnu, Macro11, dialect_of
from .directives import Directives
from .expressions import Expressions
from .faults import Fault, Place, told
from .macros import Lines, arguments_of
from .operands import Encoder
from .scanner import Scanner
from .symbols import Symbols

DEFINITION = re.compile(r"(\d+\$?(?=[ \t]*:)|[A-Za-z_.$~][\w.$~]*)[ \t]*(::?|==?:?(?!=))")
WORD = re.compile(r"[A-Za-z_.$~][\w.$~]*")
NUMBERED = re.compile(r"%[0-7]")
# how a text goes on behind a name that isn't the first value of a list: with an operand
OPERAND = re.compile(r"-\(|[^-+*/&!,]")
PASSES = 10
MOST_FAULTS = 20


class Wrong(Exception):
    """The faults of the sources, as they are printed."""


class Source:
    """A source's name, its text and its syntax."""

    def __init__(self, name, text, syntax=None):
        self.name, self.text = name, text
        self.dialect = {"gnu": Gnu, "macro": Macro11}[syntax] if syntax else dialect_of(name, text)


class Assembly:
    """The sources, one behind the other, from an address on. After `run`: `memory` has a byte for each address,
    `entry` the address at which it begins, `symbols` the names, and `listing` (place, address, bytes, line) of each line."""

    def __init__(self, sources, address):
        self.sources, self.address = sources, address
        self.symbols = Symbols(self.note)
        self.bases, self.ends = {}, {}
        self.faults = []

    def note(self, fault):
        """A fault that stands only if it is still there in the last pass. One that follows another at its place isn't told."""
        if all((place, other.column) != (self.place, fault.column) for place, other in self.faults):
            self.faults.append((self.place, fault))

    def run(self):
        for _ in range(PASSES):
            self.one_pass()
            bases = self.bases_of_next()
            if self.symbols.is_settled() and bases == self.bases:
                break
            self.bases = bases
        else:
            self.note(Fault("the names don't come to rest: a place depends on what stands behind it"))
        if self.faults:
            lines = list(dict.fromkeys(told(place, fault) for place, fault in self.faults))
            raise Wrong("\n".join(lines[:MOST_FAULTS] + ["and more"] * (len(lines) > MOST_FAULTS)))
        if not self.memory:
            raise Wrong(f"{self.sources[0].name}: nothing is assembled")
        self.entry = self.entry_of()

    def entry_of(self):
        """Where the program begins: what .END says, or `start`, or the first address."""
        if self.end is not None:
            return self.end
        known = self.symbols.now
        found = [known[key] for key in known if key[1:] in (("start",), ("START",))]
        return found[0] if found else min(self.memory)

    def bases_of_next(self):
        """Where the sections begin if they are as long as in this pass: .text, .data, .bss, and others."""
        bases, at = {"": 0}, self.address
        for name in sorted(self.ends, key=lambda name: [".text", ".data", ".bss", name].index(name)):
            if name:
                bases[name] = at
                at += self.ends[name] - self.base_of(name)
        return bases

    def base_of(self, name):
        """Where a section begins in this pass; that of absolute addresses, without a name, at 0."""
        return self.bases.get(name, self.address if name else 0)

    def one_pass(self):
        self.faults, self.memory, self.listing, self.end = [], {}, [], None
        self.ends = {".text": self.base_of(".text")}
        self.symbols.begin_pass()
        self.macros = {}
        for number, source in enumerate(self.sources):
            self.read(number, source)
            self.leave_section()
            self.pad_sections()

    def read(self, number, source):
        self.place = Place(source.name, 1)
        self.symbols.begin_source(number)
        self.dialect = source.dialect()
        self.expressions = Expressions(self.dialect, self.symbols)
        self.encoder = Encoder(self.dialect, self.expressions, self.symbols, self.note)
        self.conditions = Conditions(self.dialect, self.symbols, self.expressions)
        self.lines = Lines(source.name, source.text, self.dialect)
        self.directives = Directives(self)
        self.section = ".text"
        self.symbols.location = self.ends[".text"]
        for self.place, line in iter(self.lines.next, None):
            self.line(line)
        for fault in self.conditions.faults():
            self.note(fault)

    def leave_section(self):
        self.ends[self.section] = max(self.symbols.location, self.ends.get(self.section, 0))

    def pad_sections(self):
        """A source's part of each section ends at an even address."""
        for name, end in self.ends.items():
            if name and end % 2:
                self.memory.setdefault(end, 0)
                self.ends[name] = end + 1

    def enter_section(self, name):
        """Goes on where the section with this name ended last."""
        self.leave_section()
        self.section = name
        self.symbols.location = self.ends.setdefault(name, self.base_of(name))

    def line(self, line):
        begin, self.emitted = self.symbols.location, bytearray()
        statements = list(self.dialect.statements(line))
        for at, (left, text) in enumerate(statements, 1):
            depth = len(self.lines.waiting)
            try:
                self.statement(Scanner(text, left))
            except Fault as fault:
                self.note(self.with_hint(fault, line))
            if len(self.lines.waiting) > depth and at < len(statements):
                # a macro's lines come before the rest of this one
                behind = statements[at][0]
                self.lines.put_off(" " * behind + line[behind:], self.place)
                break
        self.listing.append((self.place, begin, bytes(self.emitted), line))

    def with_hint(self, fault, line):
        """A fault of a line; where it stands at a # of MACRO-11's, it says so."""
        if self.dialect.name == "gnu" and line[fault.column:].startswith("#"):
            return Fault(f"{fault.text}; # begins a remark in GNU's syntax (--syntax macro is MACRO-11's)", fault.column)
        return fault

    def statement(self, scanner):
        if self.conditions.take(scanner) or not self.conditions.is_on():
            return
        self.definitions(scanner)
        if scanner.is_done():
            return
        at, word = scanner.at, scanner.take(WORD)
        name = word and self.dialect.named(word)
        if name in self.macros:
            self.lines.expand(self.macros[name], arguments_of(scanner, self.expressions), self.place)
        elif word and word.startswith(".") and word != ".":
            self.directives.do(word.lower(), scanner, at)
        elif word and word.upper() in self.dialect.instructions:
            self.values(self.encoder.encoded(word, scanner), 2, scanner)
        elif self.dialect.name == "macro" and not (word and OPERAND.match(scanner.rest())):
            # a line of values alone is one of .WORD
            scanner.at = at
            self.directives.do(".word", scanner, at)
        else:
            raise scanner.fault(f"there is no instruction {word}" if word else f"no statement: {scanner.rest()}", at)

    def definitions(self, scanner):
        """Does the labels that begin a statement, and NAME = VALUE; `::` and `==` let other sources see the name."""
        while True:
            column, match = scanner.column(), DEFINITION.match(scanner.text, scanner.at)
            if match is None:
                return
            scanner.at = match.end()
            name, sign = self.dialect.named(match[1]), match[2]
            if name[0].isdigit():
                self.symbols.local_label(name, column)
                continue
            if sign[:2] in ("::", "=="):
                self.symbols.export(name)
            if sign[0] == ":":
                self.symbols.label(name, column)
            else:
                self.assign(name, scanner)

    def assign(self, name, scanner):
        if self.dialect.name == "macro" and scanner.take(NUMBERED):
            self.encoder.registers[name] = int(scanner.text[scanner.at - 1])
        elif name == ".":
            self.move(self.expressions.value(scanner), scanner)
        else:
            self.symbols.set(name, self.expressions.value(scanner))
        scanner.end()

    def move(self, place, scanner):
        """`. = PLACE`: GNU's fills with zeros, and doesn't go back."""
        place &= 0o177777
        ahead = place - self.symbols.location
        if self.dialect.name == "macro":
            self.leave_section()
            self.symbols.location = place
        elif ahead < 0:
            self.note(scanner.fault(f"the location would go back, from {self.symbols.location:o} to {place:o}", 0))
        else:
            self.bytes(bytes(ahead))

    def values(self, values, size, scanner):
        """Emits values of that many bytes; words are to lie at even addresses."""
        if size == 2 and self.symbols.location % 2:
            self.note(scanner.fault("a word at an odd address: .even is missing", 0))
        for value in values:
            self.bytes((value & (1 << 8 * size) - 1).to_bytes(size, "little"))

    def bytes(self, data):
        if self.symbols.location + len(data) > 0o200000:
            raise Fault("the program doesn't fit below 200000")
        self.memory.update(enumerate(data, self.symbols.location))
        self.emitted += data
        self.symbols.location += len(data)

    def pieces(self):
        """What is assembled, as addresses and the bytes from each on, in their order."""
        found = []
        for address in sorted(self.memory):
            if address - 1 not in self.memory:
                found.append((address, bytearray()))
            found[-1][1].append(self.memory[address])
        return found
