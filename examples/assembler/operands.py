"""Operands of instructions: from their text to the bits and the words that stand for them."""
import re

from .faults import Fault

REGISTER = re.compile(r"%[0-7]|[A-Za-z_.$][\w.$]*")
OPENING = re.compile(r"-?[ \t]*\(")
# by an operand's letter: how far left its bits stand, what a number may be, and how far a branch may go, in words
SHIFT = {"s": 6, "r": 6}
MOST = {"n": 0o377, "m": 0o77}
REACH = {"b": (-128, 127), "k": (-63, 0)}


class Encoder:
    """Encodes the instructions of a source; `registers` has the names of registers with their numbers."""

    def __init__(self, dialect, expressions, symbols, note):
        self.dialect, self.expressions, self.symbols, self.note = dialect, expressions, symbols, note
        self.registers, self.shown = dict(dialect.registers), dialect.shown

    def register(self, scanner):
        """The number of the register whose name stands here, or None."""
        scanner.blanks()
        at, text = scanner.at, scanner.take(REGISTER) or ""
        number = self.registers.get(text.upper())
        if number is None:
            scanner.at = at
        return number

    def bracketed(self, scanner):
        """The number of the register of (R) or -(R), and whether a minus is before it; None if it's something else."""
        scanner.blanks()
        at, opening = scanner.at, scanner.take(OPENING)
        register = self.register(scanner) if opening else None
        if register is None or not scanner.skip(")"):
            scanner.at = at
            return None
        return register, opening[0] == "-"

    def general(self, scanner, words):
        """The six bits of a general operand; the word that belongs to it goes to the end of WORDS."""
        deferred = 0o10 if scanner.skip(*self.dialect.deferred) else 0
        register = self.register(scanner)
        if register is not None:
            return deferred | register
        if scanner.skip(*self.dialect.immediate):
            words.append(self.word(scanner))
            return 0o27 | deferred
        found = self.bracketed(scanner)
        if found is None:
            return self.indexed(scanner, words) | deferred
        register, is_less = found
        mode = 0o40 if is_less else 0o20 if scanner.skip("+") else 0o10
        if mode == 0o10 and deferred:
            words.append(0)
            mode = 0o60
        return mode | deferred | register

    def indexed(self, scanner, words):
        """The six bits of X(R), or of the place X relative to PC."""
        value = self.word(scanner)
        found = self.bracketed(scanner)
        words.append(value if found else value - self.symbols.location - 2 * len(words) - 2 & 0o177777)
        return 0o60 | found[0] if found else 0o67

    def word(self, scanner):
        """The value of an expression in 16 bits."""
        return self.fitting(scanner, -0o100000, 0o177777) & 0o177777

    def fitting(self, scanner, least, most):
        """The value of an expression that is to lie between two numbers; noted otherwise."""
        column, value = scanner.column(), self.expressions.value(scanner)
        if not least <= value <= most:
            self.note(Fault(f"{self.shown(value)} doesn't fit: it may be {self.shown(least)} to {self.shown(most)}", column))
        return value

    def branch(self, scanner, least, most):
        """How many words the label that stands here is behind the instruction; noted if that is too far."""
        column = scanner.column()
        words, is_odd = divmod(self.expressions.value(scanner) - self.symbols.location - 2, 2)
        if is_odd:
            self.note(Fault("the branch goes to an odd address", column))
        elif not least <= words <= most:
            self.note(Fault(f"the branch is {self.shown(words)} words long, and may be {self.shown(least)} to {self.shown(most)}", column))
        return words

    def operand(self, letter, scanner, words):
        """The bits of the first word, from the lowest on, for an operand with this letter."""
        if letter in "sd":
            return self.general(scanner, words)
        if letter in REACH:
            distance = self.branch(scanner, *REACH[letter])
            return distance & 0o377 if letter == "b" else -distance & 0o77
        if letter in MOST:
            if scanner.is_done():
                return 0
            scanner.skip(*self.dialect.immediate)
            return self.fitting(scanner, 0, MOST[letter])
        register = self.register(scanner)
        if register is None:
            raise scanner.fault("a register is missing")
        return register

    def encoded(self, name, scanner):
        """The words of the instruction with this name, whose operands stand here."""
        found = self.dialect.instructions[name.upper()]
        words = [found.word]
        for at, letter in enumerate(found.operands):
            if at:
                scanner.want(",")
            words[0] |= self.operand(letter, scanner, words) << SHIFT.get(letter, 0)
        while self.dialect.name == "macro" and found.is_code() and scanner.skip("!"):
            # condition codes may be joined: CLC!CLV
            other = self.dialect.instructions.get((scanner.take(self.dialect.symbol) or "").upper())
            if other is None or not other.is_code():
                raise scanner.fault("an instruction that sets or clears condition codes is missing")
            words[0] |= other.word
        scanner.end()
        return words
