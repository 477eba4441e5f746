"""What the documents claim by name: the functions, clauses and definitions that stand between backticks beside their files. A module
for docs/contracts.py; it isn't run by itself.

A claim is a row of a table, or a paragraph, of README.md, docs/PROVED.md or docs/OPERATOR.md that names files or crates, as
`crates/p11_run/src/playing.rt`, `p11_panel/Session.antt` or `crates/p11_panel`; and a line of tools/dist/certificate that shows the
contract of a function in a file. What it names besides, as `Machine::turn`, is looked for in these files.
"""
import collections
import os
import re

TOP = os.path.join(os.path.dirname(os.path.abspath(__file__)), "..")
DOCUMENTS = ["README.md", "docs/PROVED.md", "docs/OPERATOR.md"]
FILE = re.compile(r"(?:crates/)?(?P<crate>p11_\w+)/(?:src/)?(?P<file>[\w/]+\.(?:rt|antt))|crates/(?P<whole>p11_\w+)")
NAME = re.compile(r"[A-Za-z]\w*(?:::\w+)*")
SHOWN = re.compile(r"\$\(contract (?P<name>\w+) crates/(?P<crate>\w+)/src/(?P<file>[\w/]+\.rt)\)")
Claim = collections.namedtuple("Claim", "where names files")


def units(text):
    """The rows and paragraphs of a document, with the number of each one's first line."""
    began, lines = None, []
    for number, line in enumerate([*text.split("\n"), ""], 1):
        is_row = line.startswith("|")
        if lines and (is_row or not line.strip()):
            yield began, "\n".join(lines)
            lines = []
        if line.strip():
            began, lines = (began, [*lines, line]) if lines else (number, [line])


def claim_of(where, text):
    """What a row or a paragraph claims by name."""
    names, files = [], []
    for word in (word.strip(",;:()") for code in re.findall(r"`([^`]+)`", text) for word in code.split()):
        if found := FILE.fullmatch(word):
            files.append((found["crate"] or found["whole"], found["file"]))
        elif NAME.fullmatch(word):
            names.append(word)
    return Claim(where, names, files)


def claims():
    """All claims that name files."""
    for path in DOCUMENTS:
        with open(os.path.join(TOP, path), encoding="utf-8") as file:
            for number, text in units(file.read()):
                claim = claim_of(f"{path}:{number}", text)
                if claim.names and claim.files:
                    yield claim
    with open(os.path.join(TOP, "tools", "dist", "certificate"), encoding="utf-8") as file:
        for found in SHOWN.finditer(file.read()):
            yield Claim("tools/dist/certificate", [found["name"]], [(found["crate"], found["file"])])


def is_in(crate, path, files):
    """Whether a file of a crate, by its path below the crate's src or specs, is one of a claim's files."""
    return any(crate == one and (file is None or f"/{path}".endswith(f"/{file}")) for one, file in files)


def names_function(name, function):
    """Whether a name stands for a function: by its whole name, as `Machine::turn` or `turn`, or by its type's."""
    parts, whole = name.split("::"), function.split("::")
    return parts == whole[-len(parts):] or parts == whole[:1]
