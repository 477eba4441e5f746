"""The pages of the book, docs/book.d/*.md: words in Markdown, with marks that say what is put in. A module for
docs/book; it isn't run by itself.

A mark is a comment that stands alone:

    <!-- p11_cpu Turns: turn_of, ended -->      definitions of crates/p11_cpu/specs/Turns.antt
    <!-- p11_cpu Turns -->                      those of the file that no other mark names
    <!-- p11_decode types: Size, Mode -->       types of the program that definitions name
    <!-- p11_panel call: play -->               a public call with its clauses
    <!-- map -->                                all registers by their addresses
    <!-- notation -->                           the table of the notation, from docs/READING.md

A table with the columns Address, Register, Access and Bits has registers; the bits of a row are drawn.
"""
import collections
import glob
import os
import re

from definitions import Key

DOCS = os.path.dirname(os.path.abspath(__file__))
MARK = re.compile(r"^<!--\s*(\w+)(?:\s+([\w.]+)(?::\s*(.*?))?)?\s*-->$", re.M | re.S)
REGISTERS = re.compile(r"^\| Address \| Register \| Access \| Bits \|\n\|[-|]+\|\n((?:\|.*\n?)+)", re.M)
HEADING = re.compile(r"^(#+) (.*)$", re.M)
Register = collections.namedtuple("Register", "page address name access fields")
Field = collections.namedtuple("Field", "high low name")
PutIn = collections.namedtuple("PutIn", "keys paths")


class Page:
    """A chapter: its file, its number, its title without the number, its words and its registers."""

    def __init__(self, path):
        with open(path, encoding="utf-8") as file:
            self.text = file.read()
        self.file = os.path.basename(path)
        self.number = int(self.file[:2])
        self.place = f"c{self.number:02}" if self.number else self.file[3:-3]
        self.has_notation = "<!-- notation -->" in self.text
        title = HEADING.match(self.text)
        self.title = re.sub(r"^\d+\. ", "", title.group(2)) if title else ""
        self.registers = [self.register(row) for table in REGISTERS.findall(self.text) for row in table.splitlines()]

    def register(self, row):
        """A row of a table of registers."""
        address, name, access, bits = [cell.strip() for cell in row.strip("| \n").split("|")]
        return Register(self, address, name, access, [field(text) for text in filter(None, bits.split(", "))])


def slug(text):
    """The part of an anchor that a section's title is."""
    return re.sub(r"[^\w.]+", "-", text).strip("-").lower()


def field(text):
    """A field of a register, as `13:12 PREV` or `4 T` says it."""
    bits, _, name = text.partition(" ")
    high, _, low = bits.partition(":")
    return Field(int(high), int(low or high), name)


def plain_name(key):
    """The name of a definition, of a type or of a call, without its file."""
    return key.name if isinstance(key, Key) else key[2]


class Book:
    """The pages with what is put in. `shown` has, for each definition, type and call, the pages on which it is."""

    def __init__(self, sources, reached):
        self.sources, self.reached = sources, reached
        self.pages = [Page(path) for path in sorted(glob.glob(os.path.join(DOCS, "book.d", "*.md")))]
        self.namesakes = collections.Counter(plain_name(key) for key in reached)
        self.shown, self.faults = collections.defaultdict(list), []
        self.named = {key for page in self.pages for mark in MARK.findall(page.text) for key in self.keys(*mark)}
        for page in self.pages:
            for mark in MARK.findall(page.text):
                for key in self.put_in(page, *mark).keys:
                    self.shown[key].append(page)

    def keys(self, crate, kind, names):
        """What a mark names."""
        for name in filter(None, (name.strip() for name in names.split(","))):
            yield (kind[:4], crate, name) if kind in ("types", "call") else Key(crate, kind, name)

    def put_in(self, page, crate, kind, names):
        """What a mark puts in."""
        keys = list(self.keys(crate, kind, names))
        if kind and not names:
            keys = [key for key in self.sources.lines if key[:2] == (crate, kind) and key not in self.named]
        paths = {key: self.path(key) for key in keys}
        for key in (key for key in keys if paths[key] is None):
            self.faults.append(f"{page.file}: there is no {plain_name(key)} in {crate} {kind}")
        if kind and not keys:
            self.faults.append(f"{page.file}: nothing is left of {crate} {kind}")
        there = [key for key in keys if paths[key]]
        return PutIn(there, list(dict.fromkeys(paths[key] for key in there)))

    def path(self, key):
        """The file of a definition, a type or a call, if it is there."""
        if not isinstance(key, Key) and key[0] == "call":
            found = self.sources.contract(key[1], key[2])
            return found[0] if found else None
        return self.sources.paths.get(key)

    def scope(self, key):
        """What the names in a definition's file mean."""
        return self.sources.scopes[key.crate, key.module]

    def meant_of_several(self, keys):
        """For names and prefixes of several meanings in some definitions: which is meant."""
        said = set()
        for key in (key for key in keys if isinstance(key, Key)):
            text = "\n".join(self.sources.lines[key])
            for word, meant in self.sources.meant(text, self.scope(key)).items():
                prefix, _, name = word.rpartition(".")
                if prefix and not isinstance(meant, Key):
                    said.add(f"{prefix}.* are those of {meant[1]} {meant[2]}")
                elif prefix or word == plain_name(meant) and self.is_another(key, meant):
                    place = f"{meant.crate} {meant.module}" if isinstance(meant, Key) else meant[1]
                    said.add(f"{word} is that of {place}")
        return sorted(said)

    def is_another(self, key, meant):
        """Whether a definition means by a name one of several that have it, and not the one of its own crate."""
        crate = meant.crate if isinstance(meant, Key) else meant[1]
        if crate == key.crate:
            in_crate = [other for other in self.reached if isinstance(other, Key) == isinstance(meant, Key)
                        and (other.crate if isinstance(other, Key) else other[1]) == crate
                        and plain_name(other) == plain_name(meant)]
            return len(in_crate) > 1 and (not isinstance(meant, Key) or meant.module != key.module)
        return self.namesakes[plain_name(meant)] > 1

    def registers(self):
        """All registers, by their addresses."""
        return sorted((register for page in self.pages for register in page.registers), key=lambda r: r.address)

    def explained(self):
        """The toolchain's names that the page with the notation explains in a table, with what it says of them."""
        page = next(page for page in self.pages if page.has_notation)
        rows = re.findall(r"^\| (`.*?) \| (.*) \|$", page.text, re.M)
        return {name: said for names, said in rows for name in re.findall(r"`([A-Za-z][\w']+)", names)}
