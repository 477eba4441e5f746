"""What is wrong with a source, and where."""
from typing import NamedTuple


class Place(NamedTuple):
    """A line of a source, counted from 1; `within` names the macro that was being expanded, or is empty."""

    file: str
    line: int
    within: str = ""


class Fault(Exception):
    """A text, and the column of the line, counted from 0, to which it belongs."""

    def __init__(self, text, column=0):
        super().__init__(text)
        self.text, self.column = text, column


def told(place, fault):
    """A fault as it is printed: FILE:LINE:COLUMN: text, with columns from 1 on."""
    within = f" (in the macro {place.within})" if place.within else ""
    return f"{place.file}:{place.line}:{fault.column + 1}: {fault.text}{within}"
