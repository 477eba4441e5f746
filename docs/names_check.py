#!/usr/bin/env python3
"""docs/names_check.py: whether the files and the names that the documents put between backticks are there.

Looked at are README.md, CONTRIBUTING.md and docs/*.md. A word with a slash whose first part is a folder of the repository is a
file or folder there, or beside the document; one whose first part is a crate, as `p11_cpu/Turns.antt`, is a file below that crate;
`turn.rt` and `Turns.antt` are files of any crate. Any other name with an underscore or a capital inside, as `turn_of` and
`CommandsRun`, is a word of a file that git tracks outside docs and that is no document. CRATE, NAME, FILE, FOLDER and SCRIPT stand
for any. Each fault is a line. Exit status 1: there is one.
"""
import glob
import os
import re
import shutil
import subprocess
import sys

HERE = os.path.dirname(os.path.realpath(__file__))
TOP = os.path.dirname(HERE)
STANDS_FOR_ANY = re.compile(r"\b(?:CRATE|NAME|FILE|FOLDER|SCRIPT)\b")
NAME = re.compile(r"(?:::)?[A-Za-z]\w*(?:::\w+)*(?:\(\))?")


def tracked():
    """The repository's files; where there is no git, all that lie here."""
    found = []
    if shutil.which("git"):
        done = subprocess.run(["git", "-C", TOP, "ls-files"], stdout=subprocess.PIPE, stderr=subprocess.DEVNULL, text=True)
        found = done.stdout.split("\n")[:-1]
    found = found or [os.path.relpath(path, TOP) for path in glob.glob(os.path.join(TOP, "**"), recursive=True)]
    return [path for path in found if os.path.isfile(os.path.join(TOP, path)) and "/out/" not in path]


def words_of(paths):
    """The words of the files outside docs that are no documents, and the names of files."""
    words = set()
    for path in paths:
        words.update(re.findall(r"\w+", path))
        if not path.startswith("docs/") and not path.endswith((".md", ".pack", ".tape")):
            with open(os.path.join(TOP, path), encoding="utf-8", errors="replace") as file:
                words.update(re.findall(r"[A-Za-z]\w*", file.read()))
    return words


def is_file(word, folder, paths):
    first, _, rest = word.removeprefix("./").partition("/")
    if rest and os.path.isdir(os.path.join(TOP, "crates", first)):
        return any(path.startswith(f"crates/{first}/") and f"/{path}".endswith(f"/{rest}") for path in paths)
    places = [os.path.join(TOP, word), os.path.join(folder, word), os.path.join(TOP, "crates", word)]
    return any(map(glob.glob, places)) or any(f"/{path}".endswith(f"/{word}") for path in paths if path.startswith("crates/"))


def is_named(name, words):
    """Whether there is such a name, or names that begin so if it ends with `_`."""
    return name in words or name.endswith("_") and any(one.startswith(name) for one in words)


def wrong(word, folder, paths, folders, words):
    """What is wrong with a word of a document in this folder; each fault as a text."""
    is_path = "/" in word and word.removeprefix("./").split("/")[0] in folders
    if is_path or re.fullmatch(r"[\w/]+\.(?:rt|antt)", word):
        if not is_file(word, folder, paths):
            yield f"there is no file {word}"
    elif NAME.fullmatch(word):
        for name in re.findall(r"\w+", word):
            if ("_" in name or re.search("[a-z][A-Z]", name)) and not is_named(name, words):
                yield f"nothing has the name {name}"


def faults(document, paths, folders, words):
    with open(document, encoding="utf-8") as file:
        lines = file.read().splitlines()
    for number, line in enumerate(lines, 1):
        for word in (word.strip("'\",;()") for code in re.findall(r"`([^`]+)`", line) for word in code.split()):
            if not STANDS_FOR_ANY.search(word):
                for fault in wrong(word, os.path.dirname(document), paths, folders, words):
                    yield f"{os.path.relpath(document, TOP)}:{number}: {fault}"


def main():
    paths = tracked()
    folders = {path.split("/")[0] for path in paths if "/" in path} | set(os.listdir(os.path.join(TOP, "crates")))
    words = words_of(paths)
    documents = [os.path.join(TOP, "README.md"), os.path.join(TOP, "CONTRIBUTING.md"), *sorted(glob.glob(os.path.join(HERE, "*.md")))]
    found = [fault for document in documents for fault in faults(document, paths, folders, words)]
    for fault in found:
        print(fault)
    print(f"docs/names_check.py: {len(documents)} documents, {len(found)} faults")
    return 1 if found else 0


if __name__ == "__main__":
    sys.exit(main())
