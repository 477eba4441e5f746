"""console.py LIBRARY [SCRIPT]: holds a dialogue with the console of a machine, as console.c does: lines from standard input, the
screen on standard output, files by their names. With SCRIPT its lines are all. Exit status: the dialogue's."""
import ctypes
import os
import sys

sys.dont_write_bytecode = True
sys.path.append(os.path.join(os.path.dirname(os.path.realpath(__file__)), "..", "..", "python"))
from p11 import console as p11  # noqa: E402 (the path is set first)

TROUBLES = {FileNotFoundError: p11.MISSING, PermissionError: p11.DENIED, FileExistsError: p11.THERE, IsADirectoryError: p11.FOLDER}


def fetch(console):
    try:
        with open(console.name(), "rb") as file:
            console.fetched(file.read())
    except OSError as error:
        console.missed(TROUBLES.get(type(error), p11.FAULT))


def put(console):
    may_replace, _ = console.request()
    try:
        with open(console.name(), "wb" if may_replace else "xb") as file:
            file.write(console.image())
        console.put()
    except OSError as error:
        console.put(TROUBLES.get(type(error), p11.FAULT))


def hold(console):
    """Holds the dialogue to its end; its status."""
    want = p11.STEP
    while want != p11.END:
        want = console.step()
        sys.stdout.buffer.write(console.screen())
        sys.stdout.flush()
        sys.stderr.buffer.write(console.errors())
        if want == p11.MEMORY:
            raise MemoryError
        if want in (p11.KEYS, p11.IDLE):
            keys = os.read(0, 4096)
            console.keys(keys) if keys else console.closed()
        if want == p11.FETCH:
            fetch(console)
        if want == p11.PUT:
            put(console)
    return console.status()


library, *scripts = sys.argv[1:]
console = p11.Console(ctypes.CDLL(os.path.abspath(library)), p11.BATCH if scripts else p11.GIVEN)
for script in scripts:
    console.open(os.fsencode(script))
status = hold(console)
console.drop()
sys.exit(status)
