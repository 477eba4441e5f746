"""Expressions: numbers, characters and symbols under the operators of a syntax."""
import re

from .faults import Fault

ESCAPES = {"b": 8, "t": 9, "n": 10, "f": 12, "r": 13}
ESCAPE = re.compile(r"\\(?:[0-7]{1,3}|x[0-9a-fA-F]+|.)")
RADIX = {"B": 2, "O": 8, "D": 10, "X": 16}
RADIX_MARK = re.compile(r"\^[BODXC]", re.I)
DIGITS = re.compile(r"[0-9A-Fa-f]*")
LOCAL_LABEL = re.compile(r"\d+(?:\$|[bf](?![\w$]))")


def code_of(text):
    """The byte that a character or an escape of GNU's stands for: A, \\n, \\101, \\x41 and so on."""
    if len(text) > 1 and text[1] in "01234567":
        return int(text[1:], 8) & 0o377
    if len(text) > 2:
        return int(text[2:], 16) & 0o377
    return ESCAPES.get(text[1:], ord(text[-1]) & 0o377)


class Expressions:
    """The expressions of a source, in its syntax. `symbols` has the values of names and of the location."""

    def __init__(self, dialect, symbols):
        self.dialect, self.symbols = dialect, symbols

    def value(self, scanner, least=0):
        """The value of the expression that stands here; its operators have a rank above LEAST."""
        value = self.term(scanner)
        while True:
            column, at = scanner.column(), scanner.at
            found = scanner.take(self.dialect.operator)
            rank, function = self.dialect.operators.get(found, (0, None))
            if rank <= least:
                scanner.at = at
                return value
            try:
                value = self.dialect.worked_out(function(value, self.value(scanner, rank)))
            except (ZeroDivisionError, ValueError):
                raise Fault("a division by zero, or a shift by less than 0", column) from None

    def term(self, scanner):
        opening, closing = self.dialect.brackets
        if scanner.skip(opening):
            value = self.value(scanner)
            scanner.want(closing)
            return value
        if scanner.skip("-"):
            return self.dialect.worked_out(-self.term(scanner))
        if scanner.skip("+"):
            return self.term(scanner)
        for mark, count in self.dialect.quotes.items():
            if scanner.skip(mark):
                return sum(self.character(scanner) << 8 * at for at in range(count))
        mark = self.dialect.name == "macro" and scanner.take(RADIX_MARK)
        return self.marked(mark[1].upper(), scanner) if mark else self.number_or_symbol(scanner)

    def marked(self, letter, scanner):
        """What stands behind ^ and a letter of MACRO-11's: a term to be complemented, or a number of that radix."""
        if letter == "C":
            return self.dialect.worked_out(~self.term(scanner))
        column = scanner.column()
        return self.converted(scanner.take(DIGITS), column, lambda digits: int(digits, RADIX[letter]))

    def converted(self, digits, column, convert):
        try:
            return convert(digits)
        except ValueError:
            text = f"{digits} has a digit that its radix hasn't got" if digits else "a number is missing"
            raise Fault(text, column) from None

    def character(self, scanner):
        """The code of the character that stands here."""
        match = self.dialect.character.match(scanner.text, scanner.at)
        if match is None:
            raise scanner.fault("a character is missing")
        scanner.at = match.end()
        return code_of(match[1])

    def number_or_symbol(self, scanner):
        column = scanner.column()
        text = scanner.take(LOCAL_LABEL)
        if text is not None:
            return self.symbols.local(text, column)
        text = scanner.take(self.dialect.number)
        if text is not None:
            return self.converted(text, column, self.dialect.numbered)
        name = scanner.need(self.dialect.symbol, "a number or a name")
        return self.symbols.value(self.dialect.named(name), column)
