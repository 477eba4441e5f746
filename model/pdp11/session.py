"""A session: the lines of a script, a panel and a store of files, and the text of each answer."""
import os

from .lines import parse_line
from .refusals import NUMBERS, Refused

READ_BYTES = 4096
MOST_SCRIPT_READS = 1_000_000
MOST_FETCH_READS = 4096


class SessionFault(Exception):
    """A read fault, a write fault, or a script that is too long."""


class FileStore:
    """Files named relative to the working folder."""

    def fetch(self, name):
        contents = b""
        try:
            with open(name, "rb", buffering=0) as file:
                for _ in range(MOST_FETCH_READS):
                    piece = file.read(READ_BYTES)
                    if not piece:
                        return contents
                    contents += piece
        except OSError:
            pass
        raise Refused("StoreFault")

    def put(self, name, contents):
        try:
            with open(name, "wb") as file:
                file.write(contents)
        except OSError:
            raise Refused("StoreFault") from None


def answer(panel, store, command, arguments):
    """The lines of one command's answer."""
    if command == "mount":
        number, name, protected = arguments
        return panel.mount(number, store.fetch(name), protected)
    if command == "load":
        return panel.load(store.fetch(arguments[0]))
    if command == "save":
        number, name = arguments
        store.put(name, panel.save(number))
        return ["OK"]
    if command == "continue":
        return panel.go_on(*arguments)
    return getattr(panel, command)(*arguments)


def answer_line(panel, store, line):
    """The lines of the answer to one script line; none for blank lines and comments."""
    try:
        command = parse_line(line)
        return [] if command is None else answer(panel, store, *command)
    except Refused as refusal:
        return [f"? {NUMBERS[refusal.name]} {refusal.name}"]


def script_lines(reader):
    """The pieces ended by LF, a CR just before it dropped, and a last piece that isn't empty."""
    rest = b""
    for _ in range(MOST_SCRIPT_READS):
        try:
            piece = os.read(reader, READ_BYTES)
        except OSError:
            raise SessionFault("read fault") from None
        if not piece:
            if rest:
                yield rest
            return
        *lines, rest = (rest + piece).split(b"\n")
        for line in lines:
            yield line[:-1] if line.endswith(b"\r") else line
    raise SessionFault("script too long")


def session(panel, reader, writer, store):
    for line in script_lines(reader):
        for text in answer_line(panel, store, line):
            try:
                writer.write(text.encode() + b"\n")
            except OSError:
                raise SessionFault("write fault") from None
    try:
        writer.flush()
    except OSError:
        raise SessionFault("write fault") from None
