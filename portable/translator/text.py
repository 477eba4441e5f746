"""The text of an LLVM module as words, and the types in it."""
import re
from dataclasses import dataclass

WORD = re.compile(r'''c"[^"]*"|[%@]"[^"]*"|[%@][\w.$-]+|"[^"]*"|<\{|\}>|-?\d+|[\w.]+|!\w*|\#\d+|[(){}\[\]<>,=*:]''')
# Words with which a value begins, where it is no name and no number; any other word between a type and a value is an attribute.
VALUES = {"true", "false", "null", "poison", "undef", "zeroinitializer", "getelementptr", "ptrtoint", "ptrtoaddr", "inttoptr",
          "add", "sub", "xor", "{", "<", "<{", "["}
ATTRIBUTE = re.compile(r"(?!(?:i\d+|ptr|void|label)$)[a-z]\w*")
OPENING = {"(": ")", "[": "]", "{": "}", "<": ">", "<{": "}>"}


class Unknown(Exception):
    """Something that the translator doesn't know: it makes no file then."""


@dataclass(frozen=True)
class Int:
    bits: int


@dataclass(frozen=True)
class Pointer:
    pass


@dataclass(frozen=True)
class Void:
    pass


@dataclass(frozen=True)
class Array:
    count: int
    of: object


@dataclass(frozen=True)
class Vector:
    count: int
    of: object


@dataclass(frozen=True)
class Struct:
    parts: tuple
    is_packed: bool = False


POINTER, VOID, BIT = Pointer(), Void(), Int(1)


class Words:
    """Words that are read from the first to the last."""

    def __init__(self, text):
        self.words = WORD.findall(text) if isinstance(text, str) else text
        self.at = 0

    def peek(self, further=0):
        place = self.at + further
        return self.words[place] if place < len(self.words) else ""

    def next(self):
        self.at += 1
        return self.words[self.at - 1]

    def take(self, word):
        if self.peek() != word:
            return False
        self.at += 1
        return True

    def need(self, word):
        if not self.take(word):
            raise Unknown(f"{self.peek()!r} stands for {word!r} in: {' '.join(self.words)[:200]}")

    def skip(self, *words):
        """Skips these words, in any order: which of them there were."""
        found = set()
        while self.peek() in words:
            found.add(self.next())
        return found

    def group(self):
        """The words of a group from its opening to its closing one."""
        closing = [OPENING[self.peek()]]
        words = [self.next()]
        while closing:
            word = self.next()
            words.append(word)
            if word in OPENING:
                closing.append(OPENING[word])
            elif word == closing[-1]:
                closing.pop()
        return words

    def attributes(self):
        """Skips what is said of a value beside its type: words, some with a number or a group behind them."""
        while ATTRIBUTE.fullmatch(self.peek()) and self.peek() not in VALUES:
            if self.next() == "align" and self.peek() != "(":
                self.next()
            elif self.peek() == "(":
                self.group()

    def type(self):
        word = self.next()
        if word == "ptr":
            return POINTER
        if word == "void":
            return VOID
        if re.fullmatch(r"i\d+", word):
            return Int(int(word[1:]))
        if word in ("{", "<{"):
            return Struct(tuple(self.listed(OPENING[word], self.type)), word == "<{")
        if word in ("[", "<"):
            count = int(self.next())
            self.need("x")
            of = self.type()
            self.need(OPENING[word])
            return (Array if word == "[" else Vector)(count, of)
        raise Unknown(f"no type {word!r} in: {' '.join(self.words)[:200]}")

    def listed(self, end, read):
        """What is read between commas, up to a closing word."""
        found = []
        while not self.take(end):
            found.append(read())
            self.take(",")
        return found
