"""Reads a profile of the exerciser, as somebody typed it, and says what it tells beside the tracked ones."""
import os
import re
import textwrap
from typing import NamedTuple

from p11_cases.choices import RULES

from . import sources

FOLDER = os.path.join(sources.FOLDER, "profiles")
KEPT = ("p11", "SIMH")
HEAD = re.compile(r"PDP-11 EXERCISER (\d+) (\d+) K((?: [A-Z0-9]+)*)$")
GROUP = re.compile(r"([A-Z]) (.+?) (OK|-|(\d+) (.+) ([0-7]{6}) ([0-7]{6}))$")
SUM = re.compile(r"SUM ([0-7]{6})$")
OPTIONS = {"EIS": "MUL, DIV, ASH and ASHC", "KT11": "memory management", "KW11": "a line clock that ticks", "RK11": "a disk with a pack in drive 0",
           "LIMIT": "a stack limit register", "SWITCHES": "a switch register"}


class Choice(NamedTuple):
    name: str
    rule: str
    meanings: list

    def meaning(self, letter):
        if letter == "-":
            return "wasn't tried"
        at = ord(letter) - ord("A")
        return self.meanings[at] if 0 <= at < len(self.meanings) else "something that no letter stands for"


class Group(NamedTuple):
    letter: str
    title: str
    state: str       # OK, -, or DIFFER
    count: int
    case: str
    found: str
    expected: str


class Profile(NamedTuple):
    kilowords: int
    options: list
    groups: list
    letters: str


def rows_of(name):
    """The rows of a table."""
    with open(os.path.join(sources.FOLDER, name), encoding="ascii") as file:
        return [[part.strip() for part in line.split("|")] for line in file if not line.startswith("#")]


def choices():
    """The choices, in their order."""
    return [Choice(name, rule, meanings) for name, rule, *meanings in rows_of("choices.txt")]


def sum_of(lines):
    """The sum that the exerciser makes of what it types: rotated by a bit before each character that is more than a blank."""
    total = 0
    for code in "".join(lines).encode("latin-1"):
        if code > 0o40:
            total = (total << 1 | total >> 15) + code & 0o177777
    return total


def lines_of(text):
    """The lines of a profile within a text, in capitals and without what is around them. ValueError: there is none."""
    lines = [" ".join(line.upper().split()) for line in text.splitlines()]
    lines = [line for line in lines if line]
    ends = [at for at, line in enumerate(lines) if SUM.match(line)]
    if not ends:
        raise ValueError("the profile has no line SUM with six octal digits")
    begins = [at for at, line in enumerate(lines[:ends[-1]]) if HEAD.match(line)]
    if not begins:
        raise ValueError("the profile has no first line PDP-11 EXERCISER")
    return lines[begins[-1]:ends[-1] + 1]


def read(text):
    """A profile. ValueError: a line isn't of a profile's form, or the sum is another, so it was typed wrongly."""
    first, *groups, last = lines_of(text)
    # `SUM` belongs to the sum too, which is typed before its digits
    total, said = sum_of([first, *groups, "SUM"]), int(SUM.match(last)[1], 8)
    if total != said:
        raise ValueError(f"the sum of these lines is {total:06o}, and SUM says {said:06o}: a character was typed wrongly")
    head = HEAD.match(first)
    if head[1] != "1":
        raise ValueError(f"this is a profile of version {head[1]}; only version 1 is known")
    letters = ""
    found = []
    for line in groups:
        if line.startswith("R CHOICES"):
            letters = line.removeprefix("R CHOICES").replace(" ", "")
            continue
        match = GROUP.match(line)
        if match is None:
            raise ValueError(f"this is no line of a profile: {line}")
        state = match[3] if match[3] in ("OK", "-") else "DIFFER"
        found.append(Group(match[1], match[2], state, int(match[4] or 0), match[5], match[6], match[7]))
    return Profile(int(head[2]), head[3].split(), found, letters)


def kept(name):
    with open(os.path.join(FOLDER, name.lower() + ".txt"), encoding="ascii") as file:
        return read(file.read())


def told_groups(profile):
    """A sentence for each group that differs or was left out."""
    for group in profile.groups:
        if group.state == "DIFFER":
            yield (f"Group {group.letter}, {group.title}: {group.count} cases differ from what is expected. The first is {group.case}: "
                   f"{group.found} was found where {group.expected} is expected.")
    left = [f"{group.letter} {group.title}" for group in profile.groups if group.state == "-"]
    if left:
        yield "Left out: " + ", ".join(left) + "."
    right = sum(group.state == "OK" for group in profile.groups)
    yield f"{right} groups are as the handbooks have them, as this project reads these."


def told_letters(profile):
    """A sentence for each choice that isn't p11's, or that SIMH has otherwise; how many are p11's."""
    others = {name: kept(name).letters for name in KEPT}
    table = choices()
    if len(profile.letters) != len(table):
        yield f"The profile has {len(profile.letters)} letters of choices, and there are {len(table)}: none of them is judged."
        return
    confirmed = 0
    for at, choice in enumerate(table):
        letter = profile.letters[at]
        same = [name for name in KEPT if others[name][at] == letter]
        if letter == others["p11"][at]:
            confirmed += 1
            continue
        if letter == "-":
            yield f"{choice.name}: it wasn't tried."
            continue
        yield (f"{choice.name} is {letter}" + (f", as of {' and '.join(same)}" if same else "") + f": {choice.meaning(letter)}. p11 has "
               f"{others['p11'][at]}: {choice.meaning(others['p11'][at])} ({place_of(choice)}).")
    yield f"{confirmed} of p11's {len(table)} choices are confirmed."


def place_of(choice):
    """Where the book has a choice's rule."""
    rule = RULES[choice.rule]
    return f"the rule {choice.rule}, docs/book.d/{rule.page}.md" + (f", {rule.section}" if rule.section else "")


def compared(text):
    """What a profile says, as lines, and whether none of its groups differs."""
    profile = read(text)
    options = [OPTIONS[name] for name in profile.options if name in OPTIONS]
    lines = [f"A machine with {profile.kilowords} K words of memory" + (", " + ", ".join(options) if options else "") + "."]
    lines += [*told_groups(profile)]
    if profile.letters:
        lines += [*told_letters(profile)]
    return lines, all(group.state != "DIFFER" for group in profile.groups)


def told_table(name):
    """A table of two columns, for people."""
    return "".join(textwrap.fill(text, 118, initial_indent=f"{letters:7} ", subsequent_indent=" " * 8) + "\n"
                   for letters, text in rows_of(name))


def unasked():
    """The rules for which there is no choice, and why."""
    return dict(rows_of("unasked.txt"))


def told_choices():
    """The choices with the meanings of their letters, and the rules without one, for people."""
    lines = []
    for choice in choices():
        lines.append(f"{choice.name}  ({place_of(choice)})")
        lines += [f"  {chr(ord('A') + at)}  {meaning}" for at, meaning in enumerate(choice.meanings)]
    lines.append("Rules without a choice:")
    lines += [textwrap.fill(f"{rule}: {why}", 118, initial_indent="  ", subsequent_indent="    ") for rule, why in unasked().items()]
    return "\n".join(lines) + "\n"
