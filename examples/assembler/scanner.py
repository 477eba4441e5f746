"""Reads a statement from left to right."""
import re

from .faults import Fault

BLANKS = re.compile(r"[ \t]*")
QUOTED = re.compile(r'"(?:\\.|[^"\\])*"')


class Scanner:
    """A statement's text and how far it has been read. `left` is the column of its first character in the line."""

    def __init__(self, text, left=0):
        self.text, self.at, self.left = text, 0, left

    def fault(self, text, at=None):
        return Fault(text, self.left + (self.at if at is None else at))

    def blanks(self):
        self.at = BLANKS.match(self.text, self.at).end()

    def column(self):
        """The column of the line at which the next word stands."""
        self.blanks()
        return self.left + self.at

    def take(self, pattern):
        """The text that a compiled pattern matches here, behind blanks, or None."""
        self.blanks()
        match = pattern.match(self.text, self.at)
        if match is None:
            return None
        self.at = match.end()
        return match[0]

    def need(self, pattern, what):
        """The same, where it is a fault if WHAT isn't there."""
        found = self.take(pattern)
        if found is None:
            raise self.fault(f"{what} is missing")
        return found

    def skip(self, *texts):
        """Whether one of these texts stands here, which is passed then."""
        self.blanks()
        found = next((text for text in texts if self.text.startswith(text, self.at)), None)
        self.at += len(found or "")
        return found is not None

    def want(self, text):
        if not self.skip(text):
            raise self.fault(f"{text} is missing")

    def quoted(self):
        """The text between two quotation marks, with its escapes as they stand."""
        return self.need(QUOTED, 'a text between " and "')[1:-1]

    def parts(self, read):
        """What READ takes of this scanner between commas, up to the end."""
        while not self.is_done():
            yield read(self)
            if not self.is_done():
                self.want(",")

    def rest(self):
        self.blanks()
        return self.text[self.at:].rstrip()

    def is_done(self):
        self.blanks()
        return self.at == len(self.text)

    def end(self):
        if not self.is_done():
            raise self.fault(f"this is too much: {self.rest()}")
