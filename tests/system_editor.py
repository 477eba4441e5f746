"""Random commands to the small system's editor, beside a model of it over a list of lines."""
import random

from system_model import Differs

NO_LINE, NOT_FOUND = "? there is no such line\n", "? it isn't found\n"


class Text:
    """What ed holds: its lines, and which is the current one."""

    def __init__(self):
        self.lines, self.dot = [], 0

    def has(self, first, last):
        return 0 < first <= last <= len(self.lines)

    def put(self, place, new):
        """New lines behind that of a number; what ed says."""
        if place > len(self.lines):
            return NO_LINE
        self.lines[place:place] = new
        self.dot = place + len(new)
        return ""

    def removed(self, first, last):
        if not self.has(first, last):
            return NO_LINE
        self.lines[first - 1:last] = []
        self.dot = min(first, len(self.lines))
        return ""

    def shown(self, first, last, numbers):
        if not self.has(first, last):
            return NO_LINE
        self.dot = last
        return "".join((f"{at:5} " if numbers else "") + self.lines[at - 1] + "\n" for at in range(first, last + 1))

    def changed(self, first, last, old, new, how):
        """s/OLD/NEW/HOW: OLD is no empty text."""
        if not self.has(first, last):
            return NO_LINE
        found = [at for at in range(first, last + 1) if old in self.lines[at - 1]]
        for at in found:
            self.lines[at - 1] = self.lines[at - 1].replace(old, new, -1 if "g" in how else 1)
        self.dot = found[-1] if found else self.dot
        return NOT_FOUND if not found else self.lines[self.dot - 1] + "\n" if "p" in how else ""


class Editor:
    """ed in the machine, at its first command."""

    def __init__(self, machine, chance, name):
        self.machine, self.chance, self.text = machine, chance, Text()
        self.say(f"ed {name}", f"{name}: there is no such file\n")

    def say(self, line, wanted):
        self.machine.type(line + "\r")
        found = self.machine.answer()
        if found != f"{line}\n{wanted}".replace("\n", "\r\n"):
            raise Differs(f"ed: {line!r} has to be answered {wanted!r}, and is answered {found!r}")

    def word(self, least):
        return "".join(self.chance.choices("ab", k=self.chance.randrange(least, 6)))

    def lines(self):
        """Lines as they are typed, and what they mean."""
        count, dot = len(self.text.lines), self.text.dot
        one, other = self.chance.randrange(count + 2), self.chance.randrange(count + 2)
        return self.chance.choice([("", dot, dot), (",", 1, count), (f"{one}", one, one), (f"{one},{other}", one, other),
                                   (".+1", dot + 1, dot + 1), (f"$-{count // 2},$", count - count // 2, count)])

    def command(self):
        typed, first, last = self.lines()
        kind, text = self.chance.choice("aicdpnsss="), self.text
        if kind in "aic":
            new = [self.word(0) for _ in range(self.chance.randrange(3))]
            said = text.removed(first, last) if kind == "c" else ""
            place = {"a": last, "i": max(last - 1, 0), "c": first - 1}[kind]
            said = said or text.put(place, new)
            self.say(typed + kind, said)
            for line in [] if said else [*new, "."]:
                self.say(line, "")
        elif kind == "d":
            self.say(typed + kind, text.removed(first, last))
        elif kind in "pn":
            self.say(typed + kind, text.shown(first, last, kind == "n"))
        elif kind == "=":
            self.say(typed + kind, f"{last}\n")
        else:
            old, new, how = self.word(1)[:2], self.word(0)[:3], self.chance.choice(["", "g", "p", "gp"])
            self.say(f"{typed}s/{old}/{new}/{how}", text.changed(first, last, old, new, how))
        self.say(".=", f"{text.dot}\n")


def random_commands(machine, count):
    """So many commands, behind which the file has the model's lines."""
    editor = Editor(machine, random.Random(7), "text")
    for _ in range(count):
        editor.command()
    kept = "".join(line + "\n" for line in editor.text.lines)
    editor.say("w", f"{len(kept)} bytes\n")
    machine.expect("q", "")
    machine.expect("cat text", kept.replace("\n", "\r\n"))
    machine.expect("rm text", "")
