#!/usr/bin/env python3
"""docs/proved_check.py: whether each clause that docs/PROVED.md names is in the files beside it.

A row of a table whose last column is `File` names in that column files as `p11_panel/playing.rt` (below the crate's src) and
`p11_cpu/Turns.antt` (below its specs), and in the column before it functions, clauses and definitions. Each file has to be there,
and one of the row's files has to declare each name: as a function, a clause of one, a type, a trait, a ghost member, a definition.
A file that isn't right in src or specs is looked for in their folders. The other names of PROVED are docs/names_check.py's. Each
fault is a line. Exit status 1: there is one, or no such table was found.
"""
import glob
import os
import re
import sys

HERE = os.path.dirname(os.path.realpath(__file__))
CRATES = os.path.join(HERE, "..", "crates")
FOLDERS = {".rt": "src", ".antt": "specs"}
COMMENT = {".rt": r"//.*", ".antt": r"(?:^|\s)--.*"}
# What stands before a name that a file declares.
DECLARED = {
    ".rt": r"\b(?:fn|ensures\*?|struct|enum|trait|ghost|impl(?:<[^>]*>)?(?: [\w:<>, ]+ for)?)\s+(\w+)",
    ".antt": r"^ *(?:(?:unfoldable|abbrev|pub|data|record) +)*([\w']+)(?=[^=\n]*:| *$| +where)",
}


def rows(text):
    """The rows of the tables whose last column is `File`, as (line's number, names, files)."""
    inside = False
    for number, line in enumerate(text.splitlines(), 1):
        cells = [cell.strip() for cell in line.strip().strip("|").split("|")] if line.startswith("|") else []
        if not cells:
            inside = False
        elif cells[-1] == "File":
            inside = True
        elif inside and not set(line) <= set("|-"):
            yield number, re.findall(r"`([^`]+)`", cells[-2]), re.findall(r"`([^`]+)`", cells[-1])


def declared_in(name):
    """What a file that PROVED names declares; None if there isn't just one such file."""
    crate, _, file = name.partition("/")
    end = os.path.splitext(file)[1]
    folder = os.path.join(CRATES, crate, FOLDERS.get(end, "?"))
    found = glob.glob(os.path.join(folder, file)) or glob.glob(os.path.join(folder, "**", file), recursive=True)
    if len(found) != 1:
        return None
    with open(found[0], encoding="utf-8") as source:
        return set(re.findall(DECLARED[end], re.sub(COMMENT[end], "", source.read(), flags=re.M), flags=re.M))


def faults(text):
    for number, names, files in rows(text):
        declared = {name: declared_in(name) for name in files}
        for name in (name for name in files if declared[name] is None):
            yield f"line {number}: there is no file {name}, or several"
        if not names or not files:
            yield f"line {number}: a row without a clause or without a file"
        there = set().union(*filter(None, declared.values()))
        for name in names:
            for word in name.split("::"):
                if word not in there:
                    yield f"line {number}: {word} isn't declared in {', '.join(files)}"


def main():
    with open(os.path.join(HERE, "PROVED.md"), encoding="utf-8") as file:
        text = file.read()
    found, count = list(faults(text)), len(list(rows(text)))
    for fault in found:
        print(f"docs/PROVED.md: {fault}")
    print(f"docs/proved_check.py: {count} rows, {len(found)} faults")
    return 1 if found or not count else 0


if __name__ == "__main__":
    sys.exit(main())
