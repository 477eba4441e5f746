"""A mutation test: how its file reads, in which function its text stands, and the crate's file as it is after the change.

    # Kw11::act: the next tick is due after one turn, whatever the period
    file: src/clock.rt
    old: self.due = next_tick(turn, self.period);
    new: self.due = next_tick(turn, 1);

The first line names the function in which the first old text stands: a method as Type::method, another function by its path
or the end of it. A clause may follow, after a comma. The prover has to refuse that function; or, where it has no contract of
its own, the caller that stands behind `for`: `# signed for Alu::ash, value: ..`. Each old text is one line and stands once in
the file, as the pairs above it have left it.
"""
import os
import re
import sys

sys.path.append(os.path.join(os.path.dirname(os.path.realpath(__file__)), "..", "tools"))
from functions import name_at, place_of  # noqa: E402 (the path is set first)

HEAD = re.compile(r"# (?P<function>\w+(?:::\w+)*)(?: for (?P<caller>\w+(?:::\w+)*))?(?:, [^:]+)?: (?P<says>\S.*)$")


class Bad(Exception):
    """What is wrong with an edit, whatever the prover would say of it."""


class Edit:
    """One mutation test of a crate.

    `function` and `caller` are the names in its first line (`caller` is None where there is none), `file` is the path in the
    crate, `pairs` has each old text with its new one.
    """

    def __init__(self, crate, path):
        self.crate, self.name = crate, os.path.basename(path).removesuffix(".edit")
        with open(path, encoding="utf-8") as file:
            self.text = file.read()
        lines = [line for line in self.text.split("\n") if line]
        head = HEAD.match(lines[0]) if lines else None
        if not head:
            raise Bad("its first line isn't `# FUNCTION: what is turned`, or `# FUNCTION for CALLER, CLAUSE: ..`")
        self.function, self.caller = head["function"], head["caller"]
        words = [line.partition(": ") for line in lines[1:]]
        order = [word for word, _, _ in words]
        if len(order) < 3 or order != ["file"] + ["old", "new"] * (len(order) // 2):
            raise Bad("behind its first line come one line `file: ` and pairs of lines `old: ` and `new: `")
        texts = [text for _, _, text in words]
        self.file, self.pairs = texts[0], list(zip(texts[1::2], texts[2::2]))

    def alone(self):
        """The edit as it is tried with no other."""
        return self

    def judged(self):
        """The function whose goal has to stay unproved."""
        return self.caller or self.function

    def names(self):
        """The functions that have to be checked."""
        return [self.function, self.caller] if self.caller else [self.function]

    def change(self, source):
        """The file's text after the change."""
        place = place_of(self.function, source)
        for number, (old, new) in enumerate(self.pairs):
            count = source.count(old)
            if count != 1:
                raise Bad(f"{self.file} has the text {count} times, and not once: {old.strip()}")
            if number == 0 and not (place and place.begin <= source.index(old) < place.end):
                raise Bad(f"the text doesn't stand in {self.function}, but in {name_at(source, source.index(old))}: {old.strip()}")
            source = source.replace(old, new)
        return source


class Twin(Edit):
    """An edit that is made in a copy of its function, which stands behind it under another name: so it is tried together with
    others of the function."""

    def __init__(self, edit, number, source):
        function = place_of(edit.function, source)
        turned = edit.change(source)
        self.edit, self.crate, self.name, self.text, self.file = edit, edit.crate, edit.name, edit.text, edit.file
        self.caller, self.suffix = None, f"_turned_{number}"
        self.function = edit.function + self.suffix
        name = edit.function.split("::")[-1]
        changed = turned[function.begin : place_of(edit.function, turned).end]
        self.copy = re.sub(rf"\bfn {name}\b", f"fn {name}{self.suffix}", changed, count=1)

    def alone(self):
        return self.edit

    def change(self, source):
        end = place_of(self.edit.function, source).end
        return f"{source[:end]}\n{self.copy}{source[end:]}"


def twin_of(edit, number, source):
    """The edit in a copy of its function, or None where there can be no copy: a trait asks for the function, the edit changes other
    text too, or another function has to refuse it."""
    function = place_of(edit.function, source)
    if edit.caller or not function or function.is_of_trait:
        return None
    if not all(function.begin <= source.find(old) < function.end for old, _ in edit.pairs):
        return None
    return Twin(edit, number, source)
