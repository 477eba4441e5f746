"""Instructions as MACRO-11 writes them, for people who read them."""
from .instructions import INSTRUCTIONS

REGISTERS = ["R0", "R1", "R2", "R3", "R4", "R5", "SP", "PC"]
# the bits of an instruction's first word that an operand takes
BITS = {"s": 0o7700, "d": 0o77, "r": 0o700, "x": 0o7, "b": 0o377, "k": 0o77, "n": 0o377, "m": 0o77}
# the instructions by the bits of the first word that no operand takes, and by what those are
BY_MASK = {}
for each in INSTRUCTIONS:
    BY_MASK.setdefault(0o177777 & ~sum(BITS[letter] for letter in each.operands), {})[each.word] = each


def instruction_of(word):
    """The instruction that begins with a word, or None if the word is reserved."""
    return next((found[word & mask] for mask, found in BY_MASK.items() if word & mask in found), None)


class Reading:
    """An instruction's words, one after another, at their address."""

    def __init__(self, address, words):
        self.address, self.words, self.used = address, words, 1

    def next(self):
        self.used += 1
        return self.words[self.used - 1] if self.used <= len(self.words) else 0

    def behind(self, distance):
        """The address that far behind what has been read."""
        return (self.address + 2 * self.used + distance) % 0o200000

    def general(self, operand):
        """A general operand as MACRO-11 writes it."""
        mode, register = operand >> 3, REGISTERS[operand & 7]
        deferred = "@" if mode & 1 else ""
        if mode < 2:
            return f"({register})" if mode else register
        if mode < 4:
            return f"{deferred}#{self.next():o}" if register == "PC" else f"{deferred}({register})+"
        if mode < 6:
            return f"{deferred}-({register})"
        word = self.next()
        return deferred + (f"{self.behind(word):o}" if register == "PC" else f"{word:o}({register})")

    def operand(self, letter):
        word = self.words[0]
        if letter in "sd":
            return self.general(word >> 6 & 0o77 if letter == "s" else word & 0o77)
        if letter in "rx":
            return REGISTERS[word >> 6 & 7 if letter == "r" else word & 7]
        if letter == "b":
            return f"{self.behind(2 * ((word & 0o377 ^ 0o200) - 0o200)):o}"
        if letter == "k":
            return f"{self.behind(-2 * (word & 0o77)):o}"
        return f"{word & BITS[letter]:o}"


def disassembled(address, words):
    """The instruction at an address in MACRO-11's syntax, where WORDS are the words from there on."""
    found = instruction_of(words[0])
    if found is None:
        return f".WORD {words[0]:o}"
    reading = Reading(address, words)
    operands = ",".join([reading.operand(letter) for letter in found.operands])
    return f"{found.name} {operands}".rstrip()
