"""The numbers in the book's words. A module for docs/book; it isn't run by itself.

A number of two digits in a rule has to stand in a definition or type of its section, or in one that these name, as a decimal or as
an octal number; one of more digits in one of any chapter. Sums of such numbers, ends of ranges and places where nothing
answers stand nowhere: docs/book_numbers.txt lists those, chapter by chapter. Worked examples are played (docs/worked_check.py), and
tables of registers are judged by docs/book_check.py.
"""
import os
import re

from book_pages import DOCS, MARK, REGISTERS
from definitions import Key

LIST = os.path.join(DOCS, "book_numbers.txt")
LITERAL = re.compile(r"(?<![\w.'])(0o)?(\d[\d_]*)\b")
NUMBER = re.compile(r"(?<![\w.:/+^,-])(\d{1,3}(?:,\d{3})+|\d{2,})(?![\w:])")
# What isn't read: chapters' numbers, the two modes without pages, code, a register's number and places of bits.
ASIDE = re.compile(r"\bmodes? 01\s+(?:and|or)\s+10|\b[Cc]hapters? \d+(?:(?:,| and| to)\s\d+)*|`[^`]*`|\bR\d\b|\d+:\d+(?:, \d+)*")


def values(digits, is_octal=None):
    """What digits stand for: an octal number if they are one, a decimal one if it isn't said which."""
    found = set() if is_octal else {int(digits)}
    return found | ({int(digits, 8)} if is_octal is not False and not set(digits) & set("89") else set())


def literals(book, keys):
    """The numbers in some definitions and types, without their comments."""
    found = set()
    for key in (key for key in keys if isinstance(key, Key) or key[0] == "type"):
        lines = book.sources.lines[key] if isinstance(key, Key) else [line.split("//")[0] for line in book.sources.texts[key]]
        for octal, digits in LITERAL.findall("\n".join(lines)):
            found |= values(digits.replace("_", ""), bool(octal))
    return found


def sections(book, page):
    """The sections of a page, each with the numbers of what it puts in, and of what that names."""
    for section in re.split(r"(?m)^(?=## )", page.text):
        keys = {key for mark in MARK.findall(section) for key in book.put_in(page, *mark).keys}
        lines = {key: "\n".join(book.sources.lines[key]) for key in keys if isinstance(key, Key)}
        yield section, literals(book, keys.union(*(book.sources.named(text, book.scope(key)) for key, text in lines.items())))


def allowed():
    """The numbers of docs/book_numbers.txt, by chapter."""
    found = {}
    with open(LIST, encoding="utf-8") as file:
        for line in (line for line in file if not line.startswith("#")):
            chapter, _, numbers = line.partition(":")
            found[int(chapter)] = set(numbers.split())
    return found


def in_words(section):
    """The numbers of a section's rules, as they are written."""
    text = MARK.sub("", REGISTERS.sub("", section))
    rules = [part for part in re.split(r"\n\n+", text) if not part.startswith(("Worked", "|", "#"))]
    return [number.replace(",", "") for number in NUMBER.findall(ASIDE.sub(" ", "\n\n".join(rules)))]


def faults(book):
    pages = [page for page in book.pages if page.number]
    everywhere = literals(book, book.shown) | {int(register.address[:6], 8) for register in book.registers()}
    named = allowed()
    for page in pages:
        exceptions, numbers = named.get(page.number, set()), set()
        for section, own in sections(book, page):
            title = section.partition("\n")[0].lstrip("# ")
            numbers |= set(in_words(section))
            for number in sorted(set(in_words(section)) - exceptions):
                if not values(number) & own and not (len(number) > 2 and values(number) & everywhere):
                    yield f"{page.file}, {title}: {number} is no number of a definition there"
        for number in sorted(exceptions - numbers):
            yield f"docs/book_numbers.txt: {page.file} hasn't {number}"
