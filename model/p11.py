"""p11.py [--memory K] [--lines N] SCRIPT: the machine as a plain Python program, with the command line of p11.

It is written from the rules, apart from the proved program, and keeps nothing for speed: --lines is taken and means nothing.
"""
import os
import re
import sys

from pdp11.panel import Panel
from pdp11.session import FileStore, SessionFault, session

USAGE = "Usage: p11 [OPTIONS] <SCRIPT>"


def settings(words):
    """Memory, lines and script's name; None where help was asked for; ValueError for a bad line."""
    options = {"--memory": None, "--lines": None}
    script, words, only_names = None, list(words), False
    while words:
        word = words.pop(0)
        if only_names or not word.startswith("-") or word == "-":
            if script is not None:
                raise ValueError(f"unexpected argument '{word}' found")
            script = word
            continue
        if word == "--":
            only_names = True
            continue
        if word in ("-h", "--help"):
            return None
        key, equals, value = word.partition("=")
        if key not in options:
            raise ValueError(f"unexpected argument '{word}' found")
        if options[key] is not None:
            raise ValueError(f"the argument '{key}' cannot be used multiple times")
        if not equals:
            if not words or words[0].startswith("-"):
                raise ValueError(f"a value is required for '{key}' but none was supplied")
            value = words.pop(0)
        options[key] = value
    numbers = []
    for key, usual in (("--memory", "28"), ("--lines", "1024")):
        value = usual if options[key] is None else options[key]
        if not re.fullmatch(r"\+?[0-9]+", value) or int(value) >= 2 ** 32:
            raise ValueError(f"invalid value '{value}' for '{key}'")
        numbers.append(int(value))
    if script is None:
        raise ValueError("the following required arguments were not provided: <SCRIPT>")
    return *numbers, script


def main(words):
    try:
        chosen = settings(words)
    except ValueError as cause:
        print(f"error: {cause}\n\n{USAGE}", file=sys.stderr)
        return 2
    if chosen is None:
        print(USAGE)
        return 0
    memory, lines, script = chosen
    if not (4 <= memory <= 124 and memory % 4 == 0 and lines <= 4096):
        print("? 15 BadSize", file=sys.stderr)
        return 2
    panel = Panel(memory)
    try:
        reader = os.open(script, os.O_RDONLY)
    except OSError:
        print("p11: read fault", file=sys.stderr)
        return 1
    try:
        session(panel, reader, sys.stdout.buffer, FileStore())
    except SessionFault as fault:
        try:
            sys.stdout.buffer.flush()
        except OSError:
            pass
        print(f"p11: {fault}", file=sys.stderr)
        return 1
    return 0


if __name__ == "__main__":
    sys.exit(main(sys.argv[1:]))
