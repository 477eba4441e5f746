"""Edits of one crate that one check can try together: no two change one function. Where two would, one of them is made in a copy.

The prover takes a function that is called by its contract alone, so a change of one body leaves open no goal of another function, and
an edit is judged by the goals of its own one (verdict.py). A function that an edit changes and isn't judged by may have no contract:
no other edit's function leads to it by calls.
"""
import re

from edit import Bad, Twin, twin_of
from functions import functions, name_at


def last(name):
    return name.split("::")[-1]


class Calls:
    """Which functions of a crate may lead to which, by the names alone that their texts have: more than do."""

    def __init__(self, sources):
        self.words = {}
        for source in sources.values():
            for it in functions(source):
                self.words.setdefault(last(it.name), set()).update(re.findall(r"\w+", source[it.body : it.end]))

    def reached(self, name):
        done, todo = set(), [last(name)]
        while todo:
            now = todo.pop()
            if now not in done:
                done.add(now)
                todo += self.words.get(now, set()) & self.words.keys()
        return done


def changed(edit, sources):
    """The functions, by the last parts of their names, in which an edit's old texts stand, or None: they don't yet, or in none."""
    source, found = sources[edit.file], set()
    for old, _ in edit.pairs:
        if source.count(old) != 1 or name_at(source, source.index(old)) == "no function":
            return None
        found.add(last(name_at(source, source.index(old))))
    return found


class Reach:
    """What an edit changes, the function by which it is judged, what it changes besides, and which functions that one leads to."""

    def __init__(self, edit, sources, calls):
        self.judged = last(edit.judged())
        self.changed = {self.judged} if isinstance(edit, Twin) else changed(edit, sources)
        self.besides = (self.changed or set()) - {self.judged}
        self.led_to = calls.reached(edit.alone().judged())

    def stands_beside(self, other):
        return (self.changed is not None and other.changed is not None
                and not (self.changed | {self.judged}) & (other.changed | {other.judged})
                and not self.besides & other.led_to and not other.besides & self.led_to)


def made_together(edits, sources):
    """The crate's texts with these edits, or None: one makes a text that another one changes."""
    made = dict(sources)
    try:
        for edit in edits:
            made[edit.file] = edit.change(made[edit.file])
    except Bad:
        return None
    return made


def batches(edits, sources):
    """The edits in lists, each to be tried together; the sources are the crate's, by their paths in it."""
    calls, found, reaches = Calls(sources), [], {}
    for number, edit in enumerate(edits):
        ways = [way for way in (edit, twin_of(edit, number, sources[edit.file])) if way]
        reaches.update((way, Reach(way, sources, calls)) for way in ways)
        place, way = next(((it, way) for it in found for way in ways if all(reaches[way].stands_beside(reaches[other]) for other in it)
                           and made_together([*it, way], sources)), (None, edit))
        if place is None:
            found.append(place := [])
        place.append(way)
    return found
