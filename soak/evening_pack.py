"""The pack of examples/evening as Python sees it: its catalogue and its files."""
import struct

BLOCK, CATALOGUE, FILES, ENTRIES, PACK_BLOCKS = 512, 32, 48, 128, 4872
ENTRY = "<12s4H44s"
TEXT = 2


def files_of(image):
    """The kind and the bytes of each file, by its name."""
    found = {}
    for number in range(ENTRIES):
        name, kind, first, blocks, last, _ = struct.unpack_from(ENTRY, image, CATALOGUE * BLOCK + 64 * number)
        if name[0]:
            size = (blocks - 1) * BLOCK + last if blocks else 0
            found[name.rstrip(b"\0").decode()] = kind, image[first * BLOCK:first * BLOCK + size]
    return found


def with_entries(image, entries):
    """The pack with more files, of (name, first block, blocks), whatever their blocks have."""
    made = bytearray(image.ljust(PACK_BLOCKS * BLOCK, b"\0"))
    number = sum(1 for _ in files_of(image))
    for number, (name, first, blocks) in enumerate(entries, number):
        entry = struct.pack(ENTRY, name.encode(), TEXT, first, blocks, BLOCK if blocks else 0, b"")
        made[CATALOGUE * BLOCK + 64 * number:CATALOGUE * BLOCK + 64 * (number + 1)] = entry
    return bytes(made)


def first_free(image):
    """The first block behind all files."""
    ends = [FILES]
    for number in range(ENTRIES):
        name, _, first, blocks, _, _ = struct.unpack_from(ENTRY, image, CATALOGUE * BLOCK + 64 * number)
        ends += [first + blocks] if name[0] else []
    return max(ends)
