#!/usr/bin/env python3
"""examples/system/fs.py COMMAND PACK ..: the file system of the small system, from outside.

  make PACK [FILE ..]     makes PACK: assembles the kernel and the programs beside this script, and puts the programs, those
                          in C (c/*.program, as ../cc11 --system made them), their help, what `as` needs and the FILEs on it
  check PACK              says what is wrong with the pack, a line each, or how many files and free blocks it has
  list PACK               the files with their lengths
  get PACK NAME           writes a file to standard output
  put PACK FILE ..        puts files on the pack, each under the last part of its name, in place of an old one

`Pack` is the model: what the kernel keeps on a pack (files.mac), as a dictionary of files. Exit status 1: something is
wrong with the pack, or a file can't be had; 2: the command line is wrong.
"""
import glob
import os
import re
import struct
import sys

HERE = os.path.dirname(os.path.abspath(__file__))
sys.dont_write_bytecode = True
sys.path.insert(0, os.path.dirname(HERE))
from assembler.program import Assembly, Source, Wrong  # noqa: E402 (the folder is known only now)
from compiler import FOLDER, assembled as assembled_c  # noqa: E402
from images import filled, pack as booting  # noqa: E402

BLOCK, BLOCKS, FIRST = 512, 4872, 72
COPIES = (48, 60)
DIRECTORY = 8
MARK = 0o51123
ENTRIES, ENTRY = 127, 32
LONGEST = 65535
NAME = re.compile(rb"[A-Za-z0-9._-]{1,19}\Z")
KERNEL = "sys macros kernel console disk files tasks calls kept".split()
# what is no program of its own
PARTS = {*KERNEL, "lib", "hello"}
# what a program in C stands on: these in front of it, and these behind
BEFORE, BEHIND = ["c/start.s", os.path.join(FOLDER, "long.s")], ["c/printf.c", "sys.mac", "lib.mac"]
PAGE, STACK = 8192, 1024
# what the pack has beside the programs
TEXTS = ["help", "help.ed", "sys.mac", "lib.mac", "hello.mac"]


class Bad(Exception):
    """What is wrong with a pack or with what is asked of it."""


def total(data):
    """The sum of whole blocks, as disk.mac has it."""
    found = 0
    for at, (word,) in enumerate(struct.iter_unpack("<H", data), 1):
        found = (found << 1 | found >> 15) & 0o177777
        found += word
        found = (found & 0o177777) + (found >> 16)
        if at % 256 == 0:
            found ^= 0o52525
    return found


def in_blocks(data):
    return data.ljust(-(-len(data) // BLOCK) * BLOCK, b"\0")


def cost(data):
    """How many blocks a file takes: its own, and one with their numbers."""
    return 1 + len(in_blocks(data)) // BLOCK


class Pack:
    """A pack's boot sector with its kernel, and its files by their names: (bytes, whether the sum is right)."""

    def __init__(self, image):
        self.image = bytearray(image.ljust(BLOCK * BLOCKS, b"\0"))
        self.wrong, self.files, self.used = [], {}, set()
        copies = [self.copy(at) for at in COPIES]
        for letter, copy in zip("AB", copies):
            if copy is None:
                self.wrong.append(f"copy {letter} of the directory is wrong")
        if copies[0] != copies[1] and None not in copies:
            self.wrong.append("the copies of the directory differ")
        chosen = copies[0] or copies[1]
        if chosen is None:
            raise Bad("there is no directory")
        self.entries = [chosen[at:at + ENTRY] for at in range(ENTRY, len(chosen), ENTRY)]
        for one in self.entries:
            if one[0]:
                self.add(one)

    def block(self, number, count=1):
        return bytes(self.image[BLOCK * number:BLOCK * (number + count)])

    def copy(self, at):
        """A copy of the directory, or None if it isn't right."""
        data = self.block(at, DIRECTORY)
        mark, check = struct.unpack_from("<2H", data)
        return data if (mark, check) == (MARK, total(data[:2] + b"\0\0" + data[4:])) else None

    def add(self, one):
        """Adds the file of an entry."""
        name = one[:20].rstrip(b"\0")
        index, length, check = struct.unpack_from("<3H", one, 20)
        shown = name.decode("latin-1")
        numbers = [index]
        if FIRST <= index < BLOCKS:
            numbers += struct.unpack_from(f"<{-(-length // BLOCK)}H", self.block(index))
        if not NAME.match(name) or name in self.files:
            self.wrong.append(f"{shown}: the name is wrong, or there twice")
        if any(not FIRST <= number < BLOCKS for number in numbers) or self.used & set(numbers) \
                or len(set(numbers)) < len(numbers):
            self.wrong.append(f"{shown}: its blocks are wrong")
            self.files[name] = None
            return
        self.used |= set(numbers)
        data = b"".join(map(self.block, numbers[1:]))
        if total(data) != check:
            self.wrong.append(f"{shown}: its sum is wrong")
        self.files[name] = data[:length]

    def free(self):
        return BLOCKS - FIRST - len(self.used)


def make(boot, files):
    """A pack with a kernel, and with files in their order."""
    if len(boot) > BLOCK * COPIES[0]:
        raise Bad(f"the kernel has {len(boot)} bytes, and may have {BLOCK * COPIES[0]}")
    image = bytearray(boot.ljust(BLOCK * FIRST, b"\0"))
    entries = []
    for name, data in files.items():
        if not NAME.match(name) or len(data) > LONGEST or len(entries) == ENTRIES:
            raise Bad(f"{name.decode('latin-1')}: a name has 1 to 19 letters, digits and . _ -, a file {LONGEST} bytes, "
                      f"and the directory {ENTRIES} entries")
        own = in_blocks(data)
        begin = len(image) // BLOCK
        end = begin + len(own) // BLOCK
        if end >= BLOCKS:
            raise Bad("the pack has no room")
        image += own + struct.pack(f"<{end - begin}H", *range(begin, end)).ljust(BLOCK, b"\0")
        entries.append(name.ljust(20, b"\0") + struct.pack("<3H", end, len(data), total(own)) + bytes(6))
    rest = b"".join(entries).ljust(ENTRY * ENTRIES, b"\0")
    head = struct.pack("<H", MARK).ljust(ENTRY, b"\0")
    head = head[:2] + struct.pack("<H", total(head + rest)) + head[4:]
    for at in COPIES:
        image[BLOCK * at:BLOCK * (at + DIRECTORY)] = head + rest
    return bytes(image)


def read(name):
    with open(name, "rb") as file:
        return file.read()


def write(name, data):
    with open(name, "wb") as file:
        file.write(data)


def assembled(names, address):
    """The assembly of sources beside this script."""
    assembly = Assembly([Source(f"{name}.mac", read(os.path.join(HERE, f"{name}.mac")).decode("latin-1"), "macro")
                         for name in names], address)
    assembly.run()
    return assembly


def kernel():
    """The boot sector and the kernel behind it."""
    made = assembled(KERNEL, 0o1000)
    return booting(filled(made.pieces())[1], made.entry, 0o1000)


def compiled(sources):
    """A program of sources in C; its second word says how many pages hold it and a stack."""
    own = [[os.path.join(HERE, name) for name in names] for names in (BEFORE, BEHIND)]
    assembly = assembled_c([*own[0], *sources, *own[1]], 0, ["-I", os.path.join(HERE, "c")])
    made = filled(assembly.pieces())[1]
    pages = -(-(max(assembly.ends.values()) + STACK) // PAGE)
    return made[:2] + struct.pack("<H", pages) + made[4:]


def in_assembler():
    """The programs that are assembled with the library, by their names."""
    names = sorted(os.path.basename(path)[:-4] for path in glob.glob(os.path.join(HERE, "*.mac")))
    return {name.encode(): filled(assembled(["sys", name, "lib"], 0).pieces())[1] for name in names if name not in PARTS}


def in_c():
    """The programs in C, as they were compiled, by their names."""
    return {os.path.basename(path)[:-8].encode(): read(path) for path in sorted(glob.glob(os.path.join(HERE, "c", "*.program")))}


def programs():
    return {**in_assembler(), **in_c()}


def system(more=()):
    """The pack of the system, with more files of the host's."""
    files = programs()
    files.update((name.encode(), read(os.path.join(HERE, name))) for name in TEXTS)
    files.update((os.path.basename(name).encode(), read(name)) for name in more)
    return make(kernel(), files)


def put(pack, names):
    """A pack with more files; one that is wrong is refused, since its files would be lost."""
    if pack.wrong:
        raise Bad("the pack is wrong, and check says what; nothing is put on it")
    files = dict(pack.files)
    files.update((os.path.basename(name).encode(), read(name)) for name in names)
    return make(pack.block(0, COPIES[0]), files)


def main():
    if sys.argv[1:2] in (["-h"], ["--help"]):
        print(__doc__, end="")
        return 0
    words = sys.argv[1:]
    known = {"make": (2, 99), "check": (2, 2), "list": (2, 2), "get": (3, 3), "put": (3, 99)}
    if not words or words[0] not in known or not known[words[0]][0] <= len(words) <= known[words[0]][1]:
        print("fs.py: make, check, list, get or put, and a pack; --help says more", file=sys.stderr)
        return 2
    command, name, *rest = words
    try:
        if command == "make":
            write(name, system(rest))
            return 0
        pack = Pack(read(name))
        if command == "check":
            for line in pack.wrong:
                print(line)
            if not pack.wrong:
                print(f"{len(pack.files)} files, {pack.free()} blocks are free")
            return int(bool(pack.wrong))
        if command == "list":
            for one, data in pack.files.items():
                print(f"{'?' if data is None else len(data):>6} {one.decode('latin-1')}")
        elif command == "put":
            write(name, put(pack, rest))
        else:
            data = pack.files.get(rest[0].encode())
            if data is None:
                raise Bad(f"{rest[0]}: there is no such file, or its blocks are wrong")
            sys.stdout.buffer.write(data)
    except (Bad, Wrong) as cause:
        print(f"fs.py: {cause}", file=sys.stderr)
        return 1
    except OSError as cause:
        print(f"fs.py: {cause.filename}: {cause.strerror}", file=sys.stderr)
        return 1
    return 0


if __name__ == "__main__":
    sys.exit(main())
