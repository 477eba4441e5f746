#!/usr/bin/env python3
"""docs/worked_check.py: whether each worked example of the book is played, with its numbers.

A paragraph of docs/book.d that begins with `Worked` has at least one session in docs/book.d/worked.txt, whose name is the
chapter's number and the first words of the example. Each number of the paragraph stands in the lines or answers of these, or behind
`# paper:` below their names. sessions/check plays the sessions. Each fault is a line. Exit status 1: there is one.
"""
import glob
import os
import re
import sys

HERE = os.path.dirname(os.path.realpath(__file__))
EXAMPLE = re.compile(r"^Worked(?: \([^)]*\))?[:,] (.*(?:\n.+)*)", re.M)
NUMBER = re.compile(r"-?(?<![\w.])\d+\b")


def read(*parts):
    with open(os.path.join(HERE, *parts), encoding="utf-8") as file:
        return file.read()


def numbers(text):
    """The numbers of a text, without zeros in front."""
    text = re.sub(r"(?<=\d),(?=\d{3}\b)", "", re.sub(r"\\\d{3}|\bchapters? \d+|\bR\d\b", " ", text))
    return {number.lstrip("0") or "0" for number in NUMBER.findall(text)}


def played():
    """The sessions: chapter, first words, and the numbers that they have."""
    for part in re.split(r"(?m)^= ", read("book.d", "worked.txt"))[1:]:
        name, _, rest = part.partition("\n")
        chapter, _, begin = name.partition(" ")
        text = "\n".join(line for line in rest.splitlines() if not line.startswith("#"))
        paper = re.findall(r"^# paper:(.*)", rest, re.M)
        yield int(chapter), begin, numbers(text) | numbers(" ".join(paper))


def examples():
    """The worked examples: file, chapter, line and text."""
    for path in sorted(glob.glob(os.path.join(HERE, "book.d", "*.md"))):
        text = read(path)
        for found in EXAMPLE.finditer(text):
            yield os.path.basename(path), int(os.path.basename(path)[:2]), text.count("\n", 0, found.start()) + 1, found[1]


def faults(sessions, texts):
    used = set()
    for file, chapter, line, text in texts:
        mine = [one for one in sessions if one[0] == chapter and " ".join(text.split()).startswith(one[1])]
        used |= {one[:2] for one in mine}
        lacking = numbers(text) - set().union(*(one[2] for one in mine))
        if not mine:
            yield f"{file}:{line}: no session of worked.txt: {text.splitlines()[0]}"
        elif lacking:
            yield f"{file}:{line}: not in its session: {', '.join(sorted(lacking))}"
    for chapter, begin, _ in sessions:
        if (chapter, begin) not in used:
            yield f"worked.txt: no example of chapter {chapter} begins with {begin!r}"


def main():
    texts = list(examples())
    found = list(dict.fromkeys(faults(list(played()), texts)))
    for fault in found:
        print(f"docs/book.d/{fault}")
    print(f"docs/worked_check.py: {len(texts)} examples, {len(found)} faults")
    return 1 if found or not texts else 0


if __name__ == "__main__":
    sys.exit(main())
