"""The lines of examples/run-cases, answered by a machine: an object with a method for each, which gets and gives numbers."""
import sys


def octal(words):
    return " ".join(f"{word:06o}" for word in words)


def state(answer):
    registers, how = answer
    return f"{octal(registers)} {how}"


def answer(machine, line):
    """The answer to one line."""
    name, *words = line.split()
    numbers = [int(word, 8) for word in words] if name in ("put", "regs", "switches") else []
    if name in ("put", "regs", "switches"):
        getattr(machine, name)(*numbers)
    elif name in ("new", "clock", "keys"):
        getattr(machine, name)(*map(int, words))
    elif name == "pack":
        machine.pack(int(words[0]), words[1] == "ro", words[2])
    elif name == "get":
        return octal(machine.get(int(words[0], 8), int(words[1])))
    elif name == "step":
        return state(machine.step(int(words[0])))
    elif name == "typed":
        typed = machine.typed()
        return " ".join(map(str, [len(typed), *typed]))
    elif name == "sector":
        return machine.sector(int(words[0]), int(words[1]))
    else:
        return f"? no such line: {line}"
    return "ok"


def serve(machine):
    """Answers lines up to the end of the input."""
    for line in sys.stdin:
        try:
            said = answer(machine, line)
        except (OSError, ValueError, IndexError, TypeError) as cause:
            said = f"? {cause}"
        print(said, flush=True)
