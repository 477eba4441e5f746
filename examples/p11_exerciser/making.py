"""Makes the exerciser's tapes and its pack: the model finds what is to be expected, and the assembler makes them of that."""
import os

from images import image

from . import model, sources

EXAMPLES = os.path.join(sources.FOLDER, "..")
# the results, and the tape whose assembly each is
RESULTS = {"exerciser.tape": "exerciser", "exerciser.pack": "exerciser", "exerciser-4k.tape": "exerciser-4k"}
HEAD = "; What the groups have to find, in their order, by the model (model/pdp11). Made by examples/exerciser --make.\n\n"
ACROSS = 12


def text_of(groups):
    """The source with the expected words of each group."""
    lines = [HEAD + "EXPECT:: .WORD  " + ",".join(f"X{at}" for at in range(len(groups)))]
    for at, words in enumerate(groups):
        lines.append(f"X{at}:")
        lines += ["        .WORD   " + ",".join(f"{word:06o}" for word in words[first:first + ACROSS])
                  for first in range(0, len(words), ACROSS)]
    return "\n".join(lines) + "\n"


def expected(tape):
    """The text of a tape's last source, as the model has it."""
    return text_of(model.all_learned(tape))


def file_of(tape):
    return os.path.join(sources.FOLDER, sources.TAPES[tape][0][-1] + ".mac")


def results():
    """The bytes of each result, by its name, from the sources as they are. ValueError: a tape doesn't fit its memory."""
    made = {}
    for name, tape in RESULTS.items():
        assembly = sources.assembled(tape)
        end, most = max(assembly.memory) + 1, sources.TAPES[tape][1]
        if end > most:
            raise ValueError(f"{tape} ends at {end:o}, behind {most:o}")
        made[name] = image(name, assembly.pieces(), assembly.entry)
    return made


def make():
    """Makes all anew."""
    for tape in sources.TAPES:
        text = expected(tape)
        with open(file_of(tape), "w", encoding="ascii") as file:
            file.write(text)
    for name, data in results().items():
        with open(os.path.join(EXAMPLES, name), "wb") as file:
            file.write(data)
        print(f"{name}: {len(data)} bytes")
