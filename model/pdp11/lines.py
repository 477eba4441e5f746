"""The grammar of script lines. A line is read as a command's name and its arguments."""
import re

from .refusals import refuse_if

MOST_BYTES = 4096


def octal_number(most):
    def read(word):
        refuse_if(not re.fullmatch(rb"[0-7]{1,6}", word) or int(word, 8) > most, "BadLine")
        return int(word, 8)
    return read


def decimal_number(least):
    def read(word):
        refuse_if(not re.fullmatch(rb"[0-9]{1,9}", word) or int(word) < least, "BadLine")
        return int(word)
    return read


def name(word):
    refuse_if(not re.fullmatch(rb"[\x21-\x7e]{1,255}", word), "BadLine")
    return word


def text(word):
    """A backslash stands only before three octal digits, 000 to 377, as one byte."""
    refuse_if(not re.fullmatch(rb"([\x21-\x5b\x5d-\x7e]|\\[0-3][0-7][0-7])+", word), "BadLine")
    return re.sub(rb"\\([0-7]{3})", lambda escape: bytes((int(escape[1], 8),)), word)


def access(word):
    refuse_if(word not in (b"rw", b"ro"), "BadLine")
    return word == b"ro"


ADDRESS = octal_number(0o777777)
OCTAL = octal_number(0o177777)
COUNT = decimal_number(1)
PERIOD = decimal_number(0)

GRAMMAR = {
    b"mount": (OCTAL, name, access),
    b"unmount": (OCTAL,),
    b"save": (OCTAL, name),
    b"start": (OCTAL,),
    b"key": (text,),
    b"tick": (),
    b"switches": (OCTAL,),
    b"set": (OCTAL, OCTAL),
    b"step": (COUNT,),
    b"continue": (COUNT,),
    b"regs": (),
    b"device": (),
    b"changed": (OCTAL,),
    b"load": (name,),
    b"flush": (),
    b"clock": (PERIOD,),
}


def words_of(line):
    """The words of a line, separated by spaces and tabs."""
    return [word for word in re.split(rb"[ \t]+", line) if word]


def parse_line(line):
    """The command's name and arguments; None for a line without an answer; BadLine for any other."""
    refuse_if(len(line) > MOST_BYTES, "BadLine")
    words = words_of(line)
    if not words or words[0].startswith(b"#"):
        return None
    command, arguments = words[0], words[1:]
    if command == b"examine":
        refuse_if(len(arguments) not in (1, 2), "BadLine")
        return "examine", (ADDRESS(arguments[0]), COUNT((arguments + [b"1"])[1]))
    if command == b"deposit":
        refuse_if(len(arguments) < 2, "BadLine")
        return "deposit", (ADDRESS(arguments[0]), [OCTAL(word) for word in arguments[1:]])
    refuse_if(command not in GRAMMAR, "BadLine")
    readers = GRAMMAR[command]
    refuse_if(len(arguments) != len(readers), "BadLine")
    return command.decode(), tuple(read(word) for read, word in zip(readers, arguments))
