"""Why the machine stopped, and what its last turns were, as lines of text."""
from .observed import status
from .reasons import JUMPS, end_sentence, idle_sentences, is_trap, loop_sentences, mode_of, service_sentence, where, write_sentence
from .searches import changed_last, last_change, line_that_changed
from .turns import turn_at, turns_of

NAMES = ("R0", "R1", "R2", "R3", "R4", "R5")
# how many turns the story looks back
BACK = 64
# how many traps one after another are a loop of traps
TRAPS = 8
# and how many for who changed a vector or a return address
REACH = 100000


def table(turns):
    """The turns as rows: number, PC, instruction, and the registers before it."""
    yield "    turn      PC  instruction              " + " ".join(f"{name:6}" for name in (*NAMES, "SP", "PS")).rstrip()
    for turn in turns:
        before = turn.snapshot
        stack = before.user_stack if status.current_mode(before.status) == status.USER else before.kernel_stack
        text = turn.text or "(nothing there)"
        if turn.interrupt is not None:
            text = f"(interrupt, vector {turn.interrupt:o})"
        elif turn.waiting and not turn.services and before.mark == "waiting":
            text = "(waits)"
        words = " ".join(f"{word:06o}" for word in (*before.general, stack, before.status))
        after = ""
        if turn.interrupt is None and turn.fatal:
            after = " fatal service"
        elif turn.interrupt is None and turn.services:
            after = f" trap {turn.services[-1]:o}"
        yield f"{before.turns + 1:8}  {before.program:06o}  {text:24} {words}{after}"


def mapping(before):
    """The pages of both modes, if mapping is on."""
    for mode, (descriptors, addresses) in sorted(before.pages.items()):
        for page, (pdr, par) in enumerate(zip(descriptors, addresses)):
            access = {1: "read only", 3: "read, write"}.get(pdr >> 1 & 3)
            if access:
                length = pdr >> 8 & 0o177
                blocks = f"blocks {length:o} to 177, downward" if pdr & 8 else f"blocks 0 to {length:o}"
                yield f"  {mode_of(mode << 14):6} page {page}: at {par * 64:06o}, {blocks}, {access}"


def changed(script, what, address, high, low=0):
    """The last turn from LOW to HIGH that changed the word at a bus address, as a sentence, and its number or None."""
    found = changed_last(script, address, high, low)
    if found is None:
        if low:
            return f"No turn of the {high - low} before changed {what}; --wrote {address:o} looks at all of them.", None
        return f"No turn changed {what}.", None
    line, number = line_that_changed(script, found, address), found + 1
    if line is not None:
        return f"Line {line[0]} of the script, behind turn {number}, was the last to change {what}: {line[1]}.", number
    how = write_sentence(turn_at(script, found), address)
    return f"Turn {number} was the last to change {what}: {how}.", number


def origin(script, turns):
    """How PC came to where the machine halted: the last trap, interrupt or jump, and who changed the address that it took.

    If that trap came since there was no instruction at PC, how PC came there is told as well."""
    for turn in reversed(turns):
        number, name = turn.snapshot.turns + 1, turn.text.split()[0] if turn.text else ""
        if turn.services or turn.fatal:
            yield f"In turn {number} {service_sentence(turn)}."
            yield from vector_change(script, turn, number)
            if turn.text or turn.interrupt is not None:
                return
        elif name in JUMPS or turn.text.endswith(",PC"):
            yield f"In turn {number} {turn.text} at {turn.snapshot.program:06o} went to {turn.program:06o}."
            if name in ("RTS", "RTI", "RTT"):
                yield from popped_change(script, turn, number)
            return
    if turns[0].snapshot.turns:
        yield f"No trap, interrupt or jump came in the last {len(turns)} turns; -n shows more of them."


def vector_change(script, turn, number):
    """Who changed the vector that a turn's service took."""
    if turn.vector_place is None:
        return
    words = " ".join(f"{word:06o}" for word in turn.vector)
    vector = f"vector {4 if turn.fatal else turn.services[-1]:o}"
    low = max(0, number - 1 - REACH)
    said, found = changed(script, f"{vector}, which was {words}", turn.vector_place, number - 1, low)
    yield said if found or low or turn.vector != [0, 0] else f"{vector.capitalize()} is {words}: nothing has set it."


def popped_change(script, turn, number):
    """Who changed the word that RTS PC, RTI or RTT took as the address."""
    for one in turn.references[1:]:
        if one.what == "read" and one.value == turn.program:
            what = f"the word at {where(one)}, which it took as the address"
            yield changed(script, what, one.place, number - 1, max(0, number - 1 - REACH))[0]
            return


def trap_sentences(script, turns):
    """For a run whose last turns are traps alone: since when, and who changed the vector that the last one took."""
    last, before, since = turns[-1], -1, script.total - TRAPS
    while since - before > 1:
        middle = (before + since) // 2
        if all(map(is_trap, turns_of(script, middle, TRAPS)[0])):
            since = middle
        else:
            before = middle
    yield f"Nothing but traps came from turn {since + 1} on. Of the last of them: {service_sentence(last)}."
    yield from vector_change(script, last, since + 1)


def last_turn(script):
    """How many turns there are up to the last that changed a register: those behind it wait, or are a branch to itself."""
    found = last_change(script, "regs", script.total, read=lambda answer: answer[:2])
    return script.total if found is None else found + 1


def story(script, high):
    """Why the last run ended, in sentences, where HIGH is its last turn that matters."""
    back = min(BACK, high)
    turns, devices = turns_of(script, high - back, back)
    yield end_sentence(script, turns[-1])
    reason = script.stop[1]
    if reason == "turns" and len(turns) >= TRAPS and all(map(is_trap, turns[-TRAPS:])):
        yield from trap_sentences(script, turns)
    elif reason == "turns":
        yield from loop_sentences(turns)
    elif reason == "idle":
        yield from idle_sentences(devices, turns[-1])
    else:
        yield from origin(script, turns)
