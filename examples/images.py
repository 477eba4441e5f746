"""Programs as absolute paper tapes, as packs that boot them, and as lines of a script that deposit them."""
import os
import struct
import sys

BLANK = bytes(32)
SECTOR = 512
# the words of boot-sector.s; tests/asm compares them with it
BOOT = [0o016737, 0o000766, 0o177406,  # MOV words,@#RKWC
        0o016737, 0o000762, 0o177410,  # MOV place,@#RKBA
        0o012737, 0o000001, 0o177412,  # MOV #1,@#RKDA
        0o012737, 0o000005, 0o177404,  # MOV #5,@#RKCS
        0o105737, 0o177404, 0o100375,  # TSTB @#RKCS; BPL back to it
        0o005737, 0o177404, 0o100404,  # TST @#RKCS; BMI to the HALT
        0o016706, 0o000724,            # MOV place,SP
        0o000177, 0o000722,            # JMP @entry
        0o000000, 0o000750]            # HALT; BR to the start


def block(address, data):
    """A block of a tape: 001, 000, how many bytes it has, its address, the data, and a checksum that makes the sum 0."""
    text = struct.pack("<HHH", 1, 6 + len(data), address) + data
    return text + bytes([-sum(text) % 256])


def tape(pieces, entry):
    """A tape of pieces, each an address and bytes, in blocks of at most 64 bytes; it starts at the entry."""
    blocks = [block(address + first, data[first:first + 64])
              for address, data in pieces for first in range(0, len(data), 64)]
    return BLANK + b"".join(one + BLANK[:8] for one in blocks) + block(entry, b"") + BLANK


def boot_sector(words, address, entry):
    """Sector 0: the instructions, and at its end minus how many words there are, their address and the entry."""
    code = struct.pack("<%dH" % len(BOOT), *BOOT)
    return code.ljust(SECTOR - 6, b"\0") + struct.pack("<3H", -words % 0o200000, address, entry)


def pack(program, entry, address):
    """A pack that boots a program: a boot sector reads it from sector 1 on to its address, and goes to its entry.

    ValueError: the address isn't even and 1000 (octal) or more, or the program doesn't fit below 160000."""
    if address % 2 or not 0o1000 <= address:
        raise ValueError("the address isn't even and 1000 or more")
    if address + len(program) > 0o160000:
        raise ValueError("the program doesn't fit below 160000")
    return boot_sector((len(program) + 1) // 2, address, entry) + program


def filled(pieces):
    """Pieces as one: the first address, and the bytes from it on with zeros between the pieces."""
    first = pieces[0][0]
    found = bytearray(max(address + len(data) for address, data in pieces) - first)
    for address, data in pieces:
        found[address - first:address - first + len(data)] = data
    return first, bytes(found)


def deposits(pieces, entry):
    """A script that deposits pieces, 16 words a line, and starts at the entry."""
    lines = []
    for address, data in pieces:
        if address % 2:
            address, data = address - 1, b"\0" + data
        words = struct.unpack(f"<{(len(data) + 1) // 2}H", data + bytes(len(data) % 2))
        lines += [f"deposit {address + 2 * at:o} " + " ".join(f"{word:o}" for word in words[at:at + 16])
                  for at in range(0, len(words), 16)]
    return "".join(line + "\n" for line in [*lines, f"start {entry:o}"])


def pack_of(pieces, entry):
    """A pack: the program itself if it begins at 0, or else a boot sector and the program."""
    address, program = filled(pieces)
    return program if address == 0 else pack(program, entry, address)


def script(pieces, entry):
    """A script that deposits a program, puts the stack below it, as a pack does, and starts it."""
    first = pieces[0][0] & ~1
    return (f"set 6 {first:o}\n" * (first > 0) + deposits(pieces, entry)).encode()


KINDS = {".tape": tape, ".pack": pack_of, ".p11": script}


def image(name, pieces, entry):
    """What is to be written into a file, by the end of its name; ValueError: it has none of these, or it can't be made."""
    kind = os.path.splitext(name)[1]
    if kind not in KINDS:
        raise ValueError(f"{name} ends in none of {', '.join(KINDS)}")
    return KINDS[kind](pieces, entry)


def write(name, data):
    """Writes a file, or standard output if its name is -."""
    if name == "-":
        sys.stdout.write(data.decode("latin-1"))
        return
    with open(name, "wb") as file:
        file.write(data)
