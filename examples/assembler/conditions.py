"""Conditional assembly: which lines between .IF and .ENDC, or .if and .endif, are read."""
import operator
import re

from .faults import Fault

WORD = re.compile(r"\s*\.(if\w*|else|endif|endc|iif)\b", re.I)
NAME = re.compile(r"[\w.$]+")
# how a value is compared with 0
TESTS = {"EQ": operator.eq, "NE": operator.ne, "GT": operator.gt, "LT": operator.lt, "GE": operator.ge, "LE": operator.le,
         "Z": operator.eq, "NZ": operator.ne, "G": operator.gt, "L": operator.lt, "": operator.ne}
# what becomes of a condition that held or didn't
TURNS = {"iff": operator.not_, "else": operator.not_, "ift": bool, "iftf": lambda held: True}


class Conditions:
    """The conditions that are open, the innermost last: of each whether it held, and whether its lines are read now."""

    def __init__(self, dialect, symbols, expressions):
        self.dialect, self.symbols, self.expressions = dialect, symbols, expressions
        self.open = []

    def is_on(self):
        return all(now for _, now in self.open)

    def take(self, scanner):
        """Whether the statement is one of these, which is done then."""
        match = WORD.match(scanner.text)
        word = match and match[1].lower()
        if not word or word == "iif":
            return False
        scanner.at = match.end()
        if word in TURNS or word in ("endif", "endc"):
            self.turn(word, scanner)
        else:
            holds = self.is_on() and self.holds(word[2:], scanner)
            self.open.append((holds, holds))
        return True

    def turn(self, word, scanner):
        if not self.open:
            raise scanner.fault(f".{word} stands behind no .if")
        held, _ = self.open.pop()
        if word in TURNS:
            self.open.append((held, TURNS[word](held)))

    def holds(self, test, scanner):
        """Whether a condition holds: .if VALUE, .ifdef NAME, .ifeq VALUE, or with a comma .IF EQ,VALUE."""
        if not test and self.dialect.name == "macro":
            test = scanner.take(NAME) or ""
            scanner.want(",")
        test = test.upper()
        if test in ("DF", "DEF", "NDF", "NDEF", "NOTDEF"):
            name = self.dialect.named(scanner.take(NAME) or "")
            return self.symbols.is_defined(name) == (test in ("DF", "DEF"))
        if test in ("B", "NB"):
            return (not scanner.rest().strip("<>")) == (test == "B")
        if test not in TESTS:
            raise scanner.fault(f"{test} is no condition")
        return TESTS[test](self.expressions.value(scanner), 0)

    def faults(self):
        """What is wrong at the end of the source."""
        return [Fault("a condition has no end")] if self.open else []
