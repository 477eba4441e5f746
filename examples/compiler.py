"""Programs in C for the PDP-11/40: gcc for the PDP-11 compiles them, and examples/asm's parts assemble what it makes."""
import os
import subprocess
import tempfile

from assembler.program import Assembly, Source

COMPILER = "pdp11-aout-gcc"
# what a program stands on: start.s and long.s in front of it, the others behind
FOLDER = os.path.join(os.path.dirname(os.path.realpath(__file__)), "c11")
# A compiler that soak/toolchain hasn't mended loses bit 0 in a shift to the right by a variable 0, so in its tests of a bit.
FLAGS = ["-std=c11", "-m40", "-mint16", "-msoft-float", "-O2", "-fno-bit-tests", "-ffreestanding", "-fno-builtin", "-Wall",
         "-I", FOLDER]


class Refused(Exception):
    """The compiler has said why."""


def text_of(path, folder, options):
    """A source for the assembler: the file itself, or what the compiler makes of it."""
    if path.endswith(".c"):
        made = os.path.join(folder, "made.s")
        if subprocess.run([COMPILER, *FLAGS, *options, "-S", "-o", made, path]).returncode:
            raise Refused
        path = made
    with open(path, encoding="latin-1") as file:
        return file.read()


def assembled(paths, address, options=()):
    """The assembly of sources in C and for the assembler, one behind the other, from an address on; with more options for
    the compiler."""
    with tempfile.TemporaryDirectory() as folder:
        assembly = Assembly([Source(path + ", compiled" * path.endswith(".c"), text_of(path, folder, options),
                                    "macro" if path.endswith(".mac") else "gnu") for path in paths], address)
    assembly.run()
    return assembly
