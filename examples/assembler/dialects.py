"""How the two syntaxes differ: GNU's for the target pdp11-aout, and that of DEC's MACRO-11."""
import operator
import re

from .expressions import ESCAPE
from .instructions import BY_NAME, MACRO11_NAMES

# signs of either syntax: a remark's beginning, what only MACRO-11 has, what only GNU's has
SIGN = re.compile(r"^\s*([;#/])|(@#|\^[BCDOX]|\.(?:TITLE|PSECT|ASECT|MCALL|ENABL)\b)|(\*?\$[\w(']|\.(?:globl|set|text)\s)",
                  re.M | re.I)


def quotient(left, right):
    """A quotient rounded to 0."""
    return abs(left) // abs(right) * (-1 if (left < 0) != (right < 0) else 1)


def remainder(left, right):
    return left - right * quotient(left, right)


def truth(function):
    """A comparison as GNU's assembler has it: -1 if it holds, and else 0."""
    return lambda left, right: -1 if function(left, right) else 0


def one_of(operators):
    """A pattern for operators, the longer first."""
    return re.compile("|".join(re.escape(one) for one in sorted(operators, key=len, reverse=True)))


class Dialect:
    """What both have. `statement` is the text of a statement up to a remark or to what separates it from the next."""

    registers = {**{f"R{number}": number for number in range(8)}, "SP": 6, "PC": 7}

    def statements(self, line):
        """The statements of a line without its remark, each with its first column."""
        end = -1
        while end < 0 or line[end:end + 1] == self.separator:
            match = self.statement.match(line, end + 1)
            yield match.start(), match[0]
            end = match.end()


class Gnu(Dialect):
    """GNU's syntax: `#` and `/` begin a remark, `;` the next statement; `$` is immediate, `*` deferred; 010 is octal."""

    name, separator = "gnu", ";"
    immediate, deferred = ("$",), ("*", "@")
    instructions = BY_NAME
    symbol = re.compile(r"[A-Za-z_.$~][\w.$~]*")
    number = re.compile(r"0[xX][0-9a-fA-F]+|0[bB][01]+(?![\w$])|\d+")
    brackets = ("(", ")")
    # a character may have a second quote
    quotes, character = {"'": 1}, re.compile(f"({ESCAPE.pattern}|.)'?")
    statement = re.compile(r"""(?:"(?:\\.|[^"\\])*"?|'(?:(?:\\.|.)'?)?|[^"'#/;])*""")
    # each operator's rank, the higher first, and what it does
    operators = {"*": (8, operator.mul), "%": (8, remainder), "<<": (8, operator.lshift), ">>": (8, operator.rshift),
                 "|": (7, operator.or_), "&": (7, operator.and_), "^": (7, operator.xor),
                 "!": (7, lambda left, right: left | ~right), "+": (5, operator.add), "-": (5, operator.sub),
                 "==": (4, truth(operator.eq)), "!=": (4, truth(operator.ne)), "<>": (4, truth(operator.ne)),
                 "<=": (4, truth(operator.le)), ">=": (4, truth(operator.ge)), "<": (4, truth(operator.lt)),
                 ">": (4, truth(operator.gt)), "&&": (3, lambda left, right: int(bool(left and right))),
                 "||": (2, lambda left, right: int(bool(left or right)))}
    operator = one_of(operators)

    def named(self, text):
        """A name as it is looked up."""
        return text

    def worked_out(self, value):
        return value

    def shown(self, value):
        """A number as faults tell it."""
        return str(value)

    def numbered(self, text):
        if text[:2].lower() in ("0x", "0b"):
            return int(text, 0)
        return int(text, 8 if text[0] == "0" else 10)


class Macro11(Dialect):
    """MACRO-11's: `;` begins a remark; `#` is immediate, `@` deferred; 10 is octal, 10. decimal, <..> brackets."""

    name, separator = "macro", None
    immediate, deferred = ("#",), ("@",)
    instructions = {**BY_NAME, **MACRO11_NAMES}
    registers = {**Dialect.registers, **{f"%{number}": number for number in range(8)}}
    symbol = re.compile(r"[A-Za-z.$][\w.$]*")
    number = re.compile(r"\d+\.?")
    brackets = ("<", ">")
    quotes, character = {"'": 1, '"': 2}, re.compile("(.)")
    # the texts of .ASCII, each between two of the same character, and bytes in <..> hold any; so does what a quote begins
    statement = re.compile(r"""(?:(?:[^;"']*:)?\s*\.(?:ascii|asciz|rad50)\b\s*
                               (?:(?:<[^>]*>?|([^;\s<])(?:(?!\1).)*\1?)\s*)*)?
                               (?:'.?|".{0,2}|[^;"'])*""", re.X | re.I)
    # all of one rank: from left to right
    operators = {"+": (1, operator.add), "-": (1, operator.sub), "*": (1, operator.mul), "/": (1, quotient),
                 "&": (1, operator.and_), "!": (1, operator.or_)}
    operator = one_of(operators)

    def __init__(self):
        self.radix = 8

    def named(self, text):
        return text.upper()

    def worked_out(self, value):
        """A value as the 16 bits that it is worked out in, with a sign."""
        return (value + 0o100000 & 0o177777) - 0o100000

    def shown(self, value):
        """A number as faults tell it: octal, or decimal with its point in a source of another radix."""
        return f"{value:o}" if self.radix == 8 else f"{value}."

    def numbered(self, text):
        return int(text[:-1]) if text.endswith(".") else int(text, self.radix)


def dialect_of(name, text):
    """The syntax of a source: by the end of its name, or else by the first sign of one of the two."""
    if name.lower().endswith((".mac", ".m11")):
        return Macro11
    match = SIGN.search(text)
    return Macro11 if match and (match[1] == ";" or match[2]) else Gnu
