#!/usr/bin/env python3
"""world.py WORLD RESULT: compiles the adventure's rooms, things and rules into the file that its program reads.

A line that doesn't begin with a blank begins an entry, up to the next blank line; # begins a remark.

  start ROOM             where the player begins
  points N               the greatest score
  title, intro, won TEXT what the program types at the start and the end; intro may stand more than once
  verb NAME WORD ..      a verb for the rules, and the words for it; those of ENGINE are there already
  room NAME: TITLE       then its description; a line of exits, as `north ROOM, up ROOM`; and perhaps `indoors`: a thing that is
                         `outdoors` can't be carried there
  thing NAME: A TITLE    then `words WORD, ..`; a line of `at ROOM` or `carried` or `nowhere`, and `fixed` (can't be taken), `hidden`
                         (isn't listed), `outdoors`; perhaps `here TEXT`, which lists it until it is taken; `look TEXT`
  when VERB THING THING  a rule for a command, with 0 to 2 things; `;` separates commands that mean the same. Then conditions:
                         at ROOM, has THING, hasnot THING, here THING, in THING PLACE, set FLAG, unset FLAG, with commas. Then what
                         it does: say TEXT, move THING PLACE, go ROOM, raise FLAG, score N, examine THING, win. The first
                         rule whose conditions hold is taken; a command without one does what the engine does.

A place is a room, carried, here or nowhere. RESULT has words of 16 bits, low byte first: a head, the tables (adventure.h
has their layout), and from the next block of 512 bytes on the texts, each ended by a 0. Exit status 1: WORLD is wrong.
"""
import struct
import sys

MARK = 0o40514
BLOCK = 512
DIRECTIONS = ["north", "south", "east", "west", "up", "down", "in", "out"]
# the engine's own verbs, by number; the rules may use them as well
ENGINE = {1: "north n", 2: "south s", 3: "east e", 4: "west w", 5: "up u", 6: "down d", 7: "in", 8: "out ashore",
          9: "look l", 10: "examine x read inspect", 11: "inventory i inv", 12: "take get lead catch pick",
          13: "drop leave", 14: "go walk run", 15: "score", 16: "save", 17: "restore load", 18: "quit bye exit",
          19: "help hint hints", 20: "again g", 21: "put place"}
FIRST_VERB = 32
NOWHERE, HERE, CARRIED = 0, 254, 255
FIXED, HIDDEN, OUTDOORS, INDOORS = 1, 2, 4, 1
CONDITIONS = {"at": 1, "has": 2, "hasnot": 3, "here": 4, "in": 5, "set": 6, "unset": 7}
EFFECTS = {"say": 16, "move": 17, "go": 18, "raise": 19, "score": 20, "examine": 21, "win": 22}
VERB, THING = 1, 2


class Wrong(Exception):
    """A line of the world that can't be compiled."""


class Texts:
    """The texts, each once; a text is known by its place."""

    def __init__(self):
        self.bytes, self.places = b"\0", {"": 0}

    def place(self, text):
        if text not in self.places:
            if not text.isascii() or not text.isprintable():
                raise Wrong(f"a text has characters beyond ASCII: {text[:40]}")
            self.places[text] = len(self.bytes)
            self.bytes += text.encode() + b"\0"
        return self.places[text]


class Numbers:
    """Names and their numbers, from 1 on."""

    def __init__(self, what, names=()):
        self.what, self.names = what, {name: number for number, name in enumerate(names, 1)}

    def __getitem__(self, name):
        if name not in self.names:
            raise Wrong(f"there is no {self.what} {name}")
        return self.names[name]

    def add(self, name):
        """The number of a name, which may be new."""
        return self.names.setdefault(name, len(self.names) + 1)


def entries_of(text):
    """The entries: the number of the first line, that line, and the lines behind it without their blanks in front."""
    found = []
    for number, line in enumerate(text.splitlines(), 1):
        if line.startswith("#") or not line.strip():
            continue
        if not line.startswith(" "):
            found.append((number, line, []))
        elif not found:
            raise Wrong(f"line {number}: no entry has begun")
        else:
            found[-1][2].append(line.strip())
    return found


class World:
    def __init__(self, text):
        self.entries, self.texts = entries_of(text), Texts()
        self.rooms = Numbers("room", [self.name(line) for _, line, _ in self.entries if line.startswith("room ")])
        self.things = Numbers("thing", [self.name(line) for _, line, _ in self.entries if line.startswith("thing ")])
        self.flags, self.verbs = Numbers("flag"), {}
        self.words, self.tables = [], {"room": [], "thing": [], "rule": []}
        self.code, self.one, self.intro = b"", {"start": 0, "points": 0, "title": 0, "won": 0}, ""
        for number, words in ENGINE.items():
            self.add_verb(number, words.split()[0], words.split())
        for number, line, lines in self.entries:
            try:
                self.entry(line, lines)
            except (Wrong, ValueError, IndexError) as cause:
                raise Wrong(f"line {number}: {line}: {cause}") from None

    @staticmethod
    def name(line):
        return line.partition(":")[0].split()[1]

    def add_verb(self, number, name, words):
        self.verbs[name] = number
        self.words += [(word, VERB, number) for word in words]

    def entry(self, line, lines):
        kind, _, rest = line.partition(" ")
        if kind == "verb":
            name, *words = rest.split()
            self.add_verb(FIRST_VERB + len(self.verbs), name, words)
        elif kind in ("title", "won"):
            self.one[kind] = self.texts.place(rest)
        elif kind == "intro":
            self.intro += ("\\" if self.intro else "") + rest
        elif kind == "start":
            self.one[kind] = self.rooms[rest]
        elif kind == "points":
            self.one[kind] = int(rest)
        elif kind in ("room", "thing"):
            getattr(self, kind)(rest.partition(": ")[2], self.name(line), lines)
        elif kind == "when":
            self.rules(rest.split("; "), lines)
        else:
            raise Wrong(f"there is no entry {kind}")

    def room(self, title, name, lines):
        exits, flags = [0] * len(DIRECTIONS), 0
        for line in lines[1:]:
            if line == "indoors":
                flags |= INDOORS
                continue
            for part in line.split(", "):
                direction, room = part.split()
                exits[DIRECTIONS.index(direction)] = self.rooms[room]
        self.tables["room"].append(struct.pack("<HH8BH", self.texts.place(title), self.texts.place(lines[0]), *exits, flags))

    def thing(self, title, name, lines):
        number, found = self.things[name], dict(line.partition(" ")[::2] for line in lines)
        place, flags = None, 0
        for line in lines:
            for part in line.split(", ") if line.partition(" ")[0] in ("at", "nowhere,", "nowhere", "carried") else []:
                if part.startswith("at "):
                    place = self.rooms[part[3:]]
                elif part in ("carried", "nowhere"):
                    place = CARRIED if part == "carried" else NOWHERE
                else:
                    flags |= {"fixed": FIXED, "hidden": HIDDEN, "outdoors": OUTDOORS}[part]
        if place is None:
            raise Wrong("it has no place")
        self.words += [(word, THING, number) for word in found.get("words", name).split(", ")]
        self.tables["thing"].append(struct.pack("<HHHBB", *(self.texts.place(text) for text in (title, found.get("here", ""),
                                                                                         found["look"])), place, flags))

    def place(self, name):
        return {"nowhere": NOWHERE, "here": HERE, "carried": CARRIED}.get(name) if name in ("nowhere", "here", "carried") \
            else self.rooms[name]

    def condition(self, text):
        """Three bytes: what has to hold, and of what."""
        what, *names = text.split()
        if what == "at":
            numbers = [self.rooms[names[0]], 0]
        elif what in ("set", "unset"):
            numbers = [self.flags.add(names[0]), 0]
        else:
            numbers = [self.things[names[0]], self.place(names[1]) if what == "in" else 0]
        return bytes([CONDITIONS[what], *numbers])

    def effect(self, line):
        """Three bytes: what is done, and with what; a text's place has two of them."""
        what, _, rest = line.partition(" ")
        if what == "say":
            return bytes([EFFECTS[what]]) + struct.pack("<H", self.texts.place(rest))
        names, numbers = rest.split(), [0, 0]
        if what == "move":
            numbers = [self.things[names[0]], self.place(names[1])]
        elif what == "go":
            numbers[0] = self.rooms[names[0]]
        elif what == "raise":
            numbers[0] = self.flags.add(names[0])
        elif what == "score":
            numbers[0] = int(names[0])
        elif what == "examine":
            numbers[0] = self.things[names[0]]
        return bytes([EFFECTS[what], *numbers])

    def rules(self, commands, lines):
        place, code = len(self.code), b""
        for line in lines:
            if line.partition(" ")[0] in EFFECTS:
                code += self.effect(line)
            else:
                code += b"".join(self.condition(part) for part in line.split(", "))
        self.code += code + b"\0"
        for command in commands:
            verb, *things = command.split()
            if verb not in self.verbs:
                raise Wrong(f"there is no verb {verb}")
            numbers = [*(self.things[thing] for thing in things), 0, 0][:2]
            self.tables["rule"].append(struct.pack("<BBBBH", self.verbs[verb], *numbers, 0, place))

    def compiled(self):
        """The bytes of the whole."""
        words = b"".join(word[:8].encode().ljust(8, b"\0") + bytes([kind, number]) for word, kind, number in self.words)
        code = self.code + bytes(len(self.code) % 2)
        tables = b"".join(self.tables["room"] + self.tables["thing"]) + words + b"".join(self.tables["rule"]) + code
        head = struct.pack("<12H", MARK, len(self.tables["room"]), len(self.tables["thing"]), len(self.words),
                           len(self.tables["rule"]), len(code), self.one["start"], self.one["points"], self.one["title"],
                           self.texts.place(self.intro), self.one["won"], len(tables))
        made = head + tables
        return made.ljust(-len(made) % BLOCK + len(made), b"\0") + self.texts.bytes


def main():
    try:
        if len(sys.argv) != 3:
            raise Wrong("it wants the world and the result")
        with open(sys.argv[1], encoding="ascii") as file:
            made = World(file.read()).compiled()
        with open(sys.argv[2], "wb") as file:
            file.write(made)
    except (OSError, Wrong) as cause:
        print(f"world.py: {cause}", file=sys.stderr)
        return 1
    return 0


if __name__ == "__main__":
    sys.exit(main())
