"""What a turn did, and why the machine stopped, in sentences."""
from .observed import status

INPUT_OUTPUT_PAGE = 0o760000
REGISTERS = {0o777400: "RKDS", 0o777402: "RKER", 0o777404: "RKCS", 0o777406: "RKWC", 0o777410: "RKBA", 0o777412: "RKDA",
             0o777416: "RKDB", 0o777546: "LKS", 0o777560: "RCSR", 0o777562: "RBUF", 0o777564: "XCSR", 0o777566: "XBUF",
             0o777570: "the switches", 0o777572: "SR0", 0o777576: "SR2", 0o777774: "the stack limit register",
             0o777776: "the status word"}
VECTORS = {0o4: "bus errors and the stack", 0o10: "reserved instructions", 0o14: "BPT and T", 0o20: "IOT", 0o30: "EMT",
           0o34: "TRAP", 0o60: "the receiver", 0o64: "the transmitter", 0o100: "the clock", 0o220: "the disk",
           0o250: "page aborts"}
CAUSES = ((0o100000, "isn't resident"), (0o040000, "is too short for it"), (0o020000, "is read only"))
JUMPS = ("JMP", "JSR", "RTS", "RTI", "RTT", "MARK")


def mode_of(word):
    return {0: "kernel", 3: "user"}.get(status.current_mode(word), "no")


def place_name(place):
    return REGISTERS.get(place & ~1, "") if place is not None else ""


def where(reference):
    """An address, with the place on the bus if that is another, and its name."""
    text = f"{reference.virtual:06o}"
    notes = [place_name(reference.place)]
    if reference.place is not None and reference.place not in (reference.virtual, reference.virtual + 0o600000):
        notes.insert(0, f"at {reference.place:06o}")
    notes = [note for note in notes if note]
    return f"{text} ({', '.join(notes)})" if notes else text


def failure(turn):
    """Why an instruction was trapped through vector 4 or 250, as the end of a sentence; or None."""
    if turn.red:
        return f"took the kernel's stack pointer to {turn.taken_to:06o}, into the red zone below the stack limit"
    for one in turn.references:
        if one.why is None:
            continue
        verb = "reads" if one.what == "read" else "writes"
        if one.why == "odd":
            return f"{verb} a word at {one.virtual:06o}, which is odd"
        if one.why == "absent":
            return f"{verb} {where(one)}, where nothing answers"
        if one.why == "mode":
            return f"{verb} {one.virtual:06o} in a mode that has no pages"
        causes = " and ".join(text for bit, text in CAUSES if one.why & bit)
        return f"{verb} {one.virtual:06o}: page {one.virtual >> 13} in {mode_of(one.mode << 14)} mode {causes}"
    return None


def is_trap(turn):
    """Whether a turn's instruction ended in a service."""
    return turn.interrupt is None and bool(turn.services or turn.fatal)


def cause_of(turn):
    """Why the first service of a turn came, as a sentence without its end."""
    at = f"{turn.snapshot.program:06o}"
    if turn.interrupt is not None:
        return f"an interrupt of {VECTORS[turn.interrupt]} came before {turn.text or 'the instruction'} at {at}"
    text = turn.text or "the fetch of an instruction"
    failed = failure(turn)
    if failed:
        return f"{text} at {at} {failed}"
    if turn.limit_trap_due:
        return f"{text} at {at} took the kernel's stack pointer to {turn.taken_to:06o}, below the stack limit"
    if text.startswith("HALT"):
        return f"{text} at {at} isn't in kernel mode"
    reasons = {0o4: "has a register where it wants an address", 0o10: "is a reserved instruction",
               0o14: "is BPT, or was traced"}
    return f"{text} at {at} {reasons.get(turn.services[0], 'is a trap instruction')}"


def service_sentence(turn):
    """What brought the service of a turn, and where it went."""
    if turn.fatal:
        return f"{cause_of(turn)}; that couldn't be served as usual, so the fatal service came, by vector 4 with SP at 4"
    vector = turn.services[-1]
    if turn.interrupt is not None:
        return f"{cause_of(turn)}; vector {vector:o} sent it to {turn.program:06o}"
    return f"{cause_of(turn)}; the trap went through vector {vector:o} ({VECTORS[vector]}) to {turn.program:06o}"


def write_sentence(turn, address):
    """How a turn wrote the word at a bus address."""
    for one in reversed(turn.references):
        if one.what == "wrote" and one.place is not None and one.place & ~1 == address & ~1 and one.why is None:
            if turn.services:
                return f"the service of vector {turn.services[-1]:o} pushed it: {cause_of(turn)}"
            return f"{turn.text} at {turn.snapshot.program:06o} wrote {one.value:0{6 if one.size == 16 else 3}o} there"
    changed_by = "the disk" if address < INPUT_OUTPUT_PAGE else "the machine itself"
    at = f"while {turn.text or 'the processor'} was at {turn.snapshot.program:06o}"
    return f"no instruction wrote it, so {changed_by} did, {at}"


def end_sentence(script, last):
    """How the script's last run ended, where LAST is its last turn."""
    reason, turns, place = script.stop[1], int(script.stop[2]), script.stop[3]
    if reason == "halt":
        if last.text == "HALT" and not last.services:
            return f"It halted: HALT at {last.snapshot.program:06o}, in turn {script.total}."
        return f"It halted in turn {script.total}, since the fatal service met a trap: {cause_of(last)}."
    if reason == "idle":
        return f"It idles: it waits behind WAIT at {int(place, 8) - 2 & 0o177777:06o}, and no device can interrupt it."
    if reason == "memory":
        return f"It ran out of the host's memory after {turns} turns."
    return f"It didn't stop: the last run made its {turns} turns, and PC is {place}."


def loop_sentences(turns):
    """If the last turns are one loop: where it is, and the device registers that it reads."""
    places = [turn.snapshot.program for turn in turns]
    loop = sorted(set(places[-len(places) // 2:]))
    if len(turns) < 8 or len(loop) > len(places) // 4 or set(places[len(places) // 2:]) != set(loop):
        return []
    found = [f"It is in a loop of {len(loop)} instructions, from {loop[0]:06o} to {loop[-1]:06o}."]
    read = {}
    for turn in turns:
        for one in turn.references:
            if one.what == "read" and one.value is not None and one.place is not None and one.place >= INPUT_OUTPUT_PAGE:
                read.setdefault(one.place, set()).add(one.value)
    for place, values in sorted(read.items()):
        shown = " or ".join(f"{value:06o}" for value in sorted(values))
        found.append(f"It reads {place:06o} ({place_name(place) or 'a device'}), and gets {shown} each time.")
    return found


def idle_sentences(devices, last):
    """Which devices could interrupt, where DEVICES are the lines of `device`."""
    kw11, dl11, rk11 = (devices[at].split() for at in range(3))
    enabled = [name for name, word in (("the clock", kw11[1]), ("the receiver", dl11[1]), ("the transmitter", dl11[3]),
                                       ("the disk", rk11[3])) if int(word, 8) & 0o100]
    found = [f"Interrupts are enabled for {', '.join(enabled)}." if enabled else "No device has its interrupt enabled."]
    priority = last.status >> 5 & 7
    return found + [f"The processor's priority is {priority}."] * (priority > 0)
