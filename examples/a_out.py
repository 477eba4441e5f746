"""What tape-of and pack-of take of an a.out file: a program that GNU's assembler and linker made for the PDP-11."""
import struct

MAGIC = 0o407
HEADER = struct.Struct("<8H")


def program_in(name, address):
    """The program's bytes, with zeros for .bss, and its entry; ValueError: it's no such file, or it doesn't fit behind
    ADDRESS, below 200000."""
    with open(name, "rb") as file:
        held = file.read()
    if len(held) < HEADER.size:
        raise ValueError(f"{name} has no header of an a.out file")
    magic, text, data, bss, _symbols, entry, _unused, _relocated = HEADER.unpack_from(held)
    if magic != MAGIC or len(held) < HEADER.size + text + data:
        raise ValueError(f"{name} is no a.out file of the PDP-11 with magic {MAGIC:o}")
    found = held[HEADER.size:HEADER.size + text + data] + bytes(bss)
    if address + len(found) > 0o200000:
        raise ValueError(f"{name} doesn't fit below 200000")
    return found, entry
