"""The directives: the words that begin with a point."""
import re

from .expressions import ESCAPE, code_of
from .macros import Macro, arguments_of
from .scanner import Scanner

NAME = re.compile(r"[A-Za-z_.$][\w.$]*")
DELIMITED = re.compile(r"(.)(?:(?!\1).)*\1")
RAD50 = " ABCDEFGHIJKLMNOPQRSTUVWXYZ$.%0123456789"


class Directives:
    """Does the directives of a source for its assembly."""

    def __init__(self, assembly):
        self.of, self.dialect, self.symbols = assembly, assembly.dialect, assembly.symbols
        self.expressions, self.encoder = assembly.expressions, assembly.encoder

    def do(self, word, scanner, at):
        if word not in TABLE:
            raise scanner.fault(f"there is no directive {word}", at)
        method, *given = TABLE[word]
        method(self, scanner, *given)

    def nothing(self, _scanner):
        """What says something to people or to other programs alone."""

    def values(self, scanner, size, least, most):
        """Emits the values between commas, one after another; one that is left out is 0. `.` is each one's own address."""
        more = True
        while more:
            is_left_out = scanner.is_done() or scanner.text[scanner.at] == ","
            value = 0 if is_left_out else self.encoder.fitting(scanner, least, most)
            self.of.values([value], size, scanner)
            more = scanner.skip(",")
        scanner.end()

    def text(self, scanner, end):
        """Emits the texts of .ascii, in the syntax of the source, and what ends them."""
        self.of.bytes((self.quoted(scanner) if self.dialect.name == "gnu" else self.delimited(scanner)) + end)

    def quoted(self, scanner):
        """The bytes of GNU's texts between quotation marks."""
        text = "".join(scanner.parts(Scanner.quoted))
        return ESCAPE.sub(lambda escape: chr(code_of(escape[0])), text).encode("latin-1")

    def delimited(self, scanner):
        """The bytes of MACRO-11's texts, each between two of the same character, or of a value in <..>."""
        found = bytearray()
        while not scanner.is_done():
            if scanner.skip("<"):
                found.append(self.expressions.value(scanner) & 0o377)
                scanner.want(">")
                continue
            text = scanner.take(DELIMITED)
            if text is None:
                raise scanner.fault(f"the text has no second {scanner.text[scanner.at]}")
            found += text[1:-1].encode("latin-1")
        return bytes(found)

    def rad50(self, scanner):
        text = self.delimited(scanner).decode("latin-1").upper()
        if any(letter not in RAD50 for letter in text):
            raise scanner.fault("a character that RADIX-50 hasn't got", 0)
        for at in range(0, len(text), 3):
            first, second, third = (RAD50.index(letter) for letter in text[at:at + 3].ljust(3))
            self.of.values([(first * 40 + second) * 40 + third], 2, scanner)

    def pad(self, _scanner, wanted):
        """Makes the location even or odd: WANTED is 0 or 1."""
        self.of.bytes(bytes(self.symbols.location % 2 ^ wanted))

    def space(self, scanner, unit):
        length = 1 if scanner.is_done() else self.encoder.fitting(scanner, 0, 0o177777)
        scanner.end()
        self.of.bytes(bytes(unit * max(length, 0)))

    def globl(self, scanner):
        for name in scanner.parts(lambda here: here.need(NAME, "a name")):
            self.symbols.export(self.dialect.named(name))

    def set(self, scanner):
        name = scanner.need(NAME, "a name")
        scanner.want(",")
        self.of.assign(self.dialect.named(name), scanner)

    def section(self, scanner, name=None):
        self.of.enter_section(scanner.take(NAME) or ".text" if name is None else name)

    def radix(self, scanner):
        digits = scanner.rest().rstrip(".") or "8"
        if digits not in ("2", "8", "10"):
            raise scanner.fault("a radix is 2, 8 or 10")
        self.dialect.radix = int(digits)

    def end(self, scanner):
        """The end of the source, and where the program begins."""
        self.of.lines.end()
        if not scanner.is_done():
            self.of.end = self.expressions.value(scanner)

    def macro(self, scanner):
        name = scanner.need(NAME, "a name")
        scanner.skip(",")
        parameters = [part.strip() for part in scanner.rest().split(",") if part.strip()]
        lines = self.of.lines.block(f"the macro {name}")
        self.of.macros[self.dialect.named(name)] = Macro(name, parameters, lines)

    def rept(self, scanner):
        times = self.encoder.fitting(scanner, 0, 0o177777)
        lines = self.of.lines.block(".rept")
        self.of.lines.push(lines * times, self.of.place, ".rept")

    def irp(self, scanner):
        name = scanner.need(NAME, "a name")
        scanner.want(",")
        values = arguments_of(scanner, self.expressions)
        if self.dialect.name == "macro" and len(values) == 1:
            values = [part.strip() for part in values[0].split(",")]
        macro = Macro(".irp", [name], self.of.lines.block(".irp"))
        for value in reversed(values):
            self.of.lines.expand(macro, [value], self.of.place)

    def leave(self, _scanner):
        self.of.lines.leave()

    def iif(self, scanner):
        """.IIF CONDITION,VALUE,STATEMENT."""
        test, _, rest = scanner.rest().partition(",")
        value, _, statement = rest.partition(",")
        if self.of.conditions.holds("", Scanner(f"{test},{value}", scanner.left)):
            self.of.statement(Scanner(statement, scanner.left + len(scanner.text) - len(statement)))


# a directive's method, and what it is given besides
TABLE = {
    ".word": (Directives.values, 2, -0o100000, 0o177777), ".byte": (Directives.values, 1, -0o200, 0o377),
    ".ascii": (Directives.text, b""), **dict.fromkeys((".asciz", ".string"), (Directives.text, b"\0")),
    ".rad50": (Directives.rad50,), ".even": (Directives.pad, 0), ".odd": (Directives.pad, 1),
    **dict.fromkeys((".blkb", ".space", ".skip"), (Directives.space, 1)), ".blkw": (Directives.space, 2),
    **dict.fromkeys((".globl", ".global"), (Directives.globl,)), **dict.fromkeys((".set", ".equ"), (Directives.set,)),
    **{name: (Directives.section, name) for name in (".text", ".data", ".bss")}, ".asect": (Directives.section, ""),
    **dict.fromkeys((".psect", ".csect"), (Directives.section,)), ".radix": (Directives.radix,), ".end": (Directives.end,),
    ".macro": (Directives.macro,), ".rept": (Directives.rept,), ".irp": (Directives.irp,), ".iif": (Directives.iif,),
    **dict.fromkeys((".mexit", ".exitm"), (Directives.leave,)),
    **dict.fromkeys(".title .ident .sbttl .page .list .nlist .enabl .dsabl .mcall .print .file".split(),
                    (Directives.nothing,)),
}
