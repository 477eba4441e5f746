"""The listing of an assembly: each line with its address and its words, and the symbols."""

WORDS = 3


def words_of(address, data):
    """Bytes as they are listed, each with its address: words in octal, and single bytes at odd addresses."""
    while data:
        size = 2 if address % 2 == 0 and len(data) > 1 else 1
        yield address, f"{int.from_bytes(data[:size], 'little'):0{3 * size}o}"
        address, data = address + size, data[size:]


def rows(place, address, data, line):
    """A line of a source, and further rows for the words that have no room in it."""
    words = list(words_of(address, data))
    number = f"{place.line:5}" if not place.within else "     "
    at = f"{address:06o}" if data else ""
    yield f"{number}  {at:6} {' '.join(text for _, text in words[:WORDS]):20}  {line}".rstrip()
    # one value that fills a room isn't listed again and again
    is_filled = len({text for _, text in words}) == 1
    for first in range(WORDS, 0 if is_filled else len(words), WORDS):
        yield f"       {words[first][0]:06o} {' '.join(text for _, text in words[first:first + WORDS])}"


def listing(assembly):
    found = []
    for place, address, data, line in assembly.listing:
        found += rows(place, address, data, line)
    symbols = [f"{value & 0o177777:06o} {name}" for name, value in assembly.symbols.table()]
    width = max((len(one) for one in symbols), default=0) + 2
    across = max(1, 100 // width)
    found += ["", "Symbols:"]
    found += ["".join(one.ljust(width) for one in symbols[at:at + across]).rstrip() for at in range(0, len(symbols), across)]
    return "".join(line + "\n" for line in found)
