"""The state of a machine in a case: a dictionary of words by short names (examples/CASES.md), taken from the model, put into
it, and compared."""
from cases_reading import USUAL
from pdp11.status import KERNEL, USER

PAGES = {"kpdr": (KERNEL, "page_descriptors"), "kpar": (KERNEL, "page_addresses"), "updr": (USER, "page_descriptors"),
         "upar": (USER, "page_addresses")}
WORDS = {"ksp": "kernel_stack", "usp": "user_stack", "pc": "program", "ps": "status", "slr": "stack_limit"}


def blank():
    """All registers 0."""
    return {"r": [0] * 6, "ksp": 0, "usp": 0, "pc": 0, "ps": 0, **{name: kept if isinstance(kept, (int, str)) else list(kept)
                                                                  for name, kept in USUAL.items()}}


def put(machine, words):
    """Sets the registers of the model's machine after INIT; its memory is drawn anew."""
    machine.memory.forget()
    machine.initialize()
    machine.turns, machine.waiting, machine.halted, machine.limit_trap_due = 0, False, False, False
    machine.general = list(words["r"])
    for name, attribute in WORDS.items():
        setattr(machine, attribute, words[name])
    machine.management.status_0, machine.management.status_2 = words["sr0"], words["sr2"]
    for name, (mode, attribute) in PAGES.items():
        getattr(machine.management, attribute)[mode] = list(words[name])


def taken(machine):
    """The registers of the model's machine."""
    found = {"r": list(machine.general), **{name: getattr(machine, attribute) for name, attribute in WORDS.items()},
             "sr0": machine.management.status_0, "sr2": machine.management.status_2,
             "run": "halted" if machine.halted else "waiting" if machine.waiting else "ready"}
    for name, (mode, attribute) in PAGES.items():
        found[name] = list(getattr(machine.management, attribute)[mode])
    return found


def without_usual(words):
    """A state without what is usual."""
    return {name: word for name, word in words.items() if name not in USUAL or USUAL[name] != word}


def changes(before, after):
    """What of a state is another after the turns."""
    return {name: word for name, word in after.items() if before.get(name) != word}


def runs(words):
    """Words by their addresses as runs: an address, and the words from there on."""
    found, last = [], None
    for address in sorted(words):
        if address == last:
            found[-1].append(words[address])
        else:
            found.append([address, words[address]])
        last = address + 2
    return found
