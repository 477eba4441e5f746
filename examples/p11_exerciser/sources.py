"""Assembles the exerciser's sources, with the words that it expects or with room for them."""
import os

from assembler.program import Assembly, Source

FOLDER = os.path.dirname(os.path.abspath(__file__))
ADDRESS, ROOM = 0o1000, 0o3000
# each tape's sources, the last of which has the expected words, and the first address that isn't the tape's
COMMON = ["names", "main", "type", "try", "values", "modes", "control"]
TAPES = {"exerciser": ([*COMMON, "eis", "traps", "kt11", "devices", "rk11", "choices", "groups", "expected"], 0o37074),
         "exerciser-4k": ([*COMMON, "groups-4k", "expected-4k"], 0o17474)}


def read(name):
    with open(os.path.join(FOLDER, name + ".mac"), encoding="ascii") as file:
        return file.read()


def assembled(tape, expected=None):
    """The assembly of a tape; `expected` is a text that stands for its last source."""
    names = TAPES[tape][0]
    texts = [read(name) for name in names[:-1]] + [read(names[-1]) if expected is None else expected]
    assembly = Assembly([Source(name + ".mac", text) for name, text in zip(names, texts)], ADDRESS)
    assembly.run()
    return assembly


def groups(tape):
    """The titles of a tape's groups, in their order."""
    lines = read(TAPES[tape][0][-2]).splitlines()
    return [line.split("<")[1].rstrip(">") for line in lines if line.split()[:1] == ["TITLED"]]


def with_room(tape):
    """The assembly of a tape in which each group has ROOM bytes for its expected words."""
    count = len(groups(tape))
    places = ",".join(f"EXPECT+{2 * count + ROOM * at:o}" for at in range(count))
    return assembled(tape, f"EXPECT:: .WORD {places}\n")
