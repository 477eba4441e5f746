"""The known differences between the program and SIMH's 11/40: each with the rule that the program follows.

Each looks at a case and at both outcomes, and answers which of the fields that differ it explains. A difference is
known where each of its fields is explained by one of them.
"""
from typing import Callable, NamedTuple

from simh_cases import HANDLERS, VECTORS

MODIFIES = {0o3, 0o51, 0o52, 0o53, 0o54, 0o55, 0o56, 0o60, 0o61, 0o62, 0o63}
EARLY = {0o50, 0o66, 0o67}
GENERAL = {"R0", "R1", "R2", "R3", "R4", "R5"}
# behind the HALT of each handler
HANDLED = {f"{HANDLERS + 4 * index + 2:06o}" for index in range(len(VECTORS))}
FAULT, ABORT = f"{HANDLERS + 2:06o}", f"{HANDLERS + 4 * VECTORS.index(0o250) + 2:06o}"


class Known(NamedTuple):
    name: str
    rule: str
    explains: Callable  # case, ours, theirs, the set of fields that differ -> those of them that it explains


def octal(outcome, name):
    return int(outcome.get(name, "0"), 8)


def turned(ours, theirs, name):
    """The bits in which a field differs."""
    return octal(ours, name) ^ octal(theirs, name)


def within(ours, theirs, fields, bits):
    """The fields in which no other bits differ."""
    return {name for name in fields if name != "stop" and turned(ours, theirs, name) & ~bits == 0}


def is_page(name):
    return name[:4] in ("7723", "7776")


def stopped(theirs):
    """Whether SIMH gave up, since a service met a trap itself."""
    return theirs["stop"].endswith("abort")


def one_operand(case):
    """The operation code of an instruction of one operand, without the bit for bytes."""
    word = case.instruction
    return (word >> 6) & 0o777 if 0o5000 <= word & 0o77777 < 0o7000 or word >> 6 == 3 else None


def modifies(case):
    word = case.instruction
    double = (word >> 12) & 7 in (4, 5) or word >> 12 in (6, 0o16) or word >> 9 == 0o74
    return double or one_operand(case) in MODIFIES


def is_served(outcome):
    """Whether the end is a trap's handler, or where a service failed."""
    return outcome["PC"] in HANDLED or stopped(outcome) or outcome["KSP"] == "000000"


def had_fatal(ours):
    """Whether the end is that of a fatal service through word 4: its handler, with the stack at 0."""
    return ours["KSP"] == "000000" and ours["PC"] == FAULT


def is_fatal(case, ours, theirs, fields):
    # SIMH stops with PC and status as they were, which the fatal service pushes
    status = octal(ours, "000002") ^ octal(theirs, "PSW")
    may_differ = 0o17 if modifies(case) or one_operand(case) in EARLY else 0o14 if case.instruction >> 9 == 0o71 else 0
    pushed = had_fatal(ours) and ours["000000"] == theirs["PC"] and status & ~may_differ == 0
    # where it fails too, the machine halts with PC and status as they were
    failed = ours["stop"] == "halt" and octal(ours, "KSP") in (0, 2, 4) and not {"PC", "PSW"} & fields
    return fields - GENERAL if stopped(theirs) and (pushed or failed) else set()


def at_the_end(case, ours, theirs, fields):
    """A stack pointer comes to the words 177774 and 177776, which are registers."""
    ends = [octal(outcome, name) for outcome in (ours, theirs) for name in ("KSP", "USP")]
    there = any(place <= 2 for place in case.registers[6:8]) or any(place >= 0o177770 for place in ends)
    return fields if there and (is_served(ours) or is_served(theirs)) else set()


def at_the_limit(case, ours, theirs, fields):
    stack, other = octal(ours, "KSP"), octal(theirs, "KSP")
    if had_fatal(ours) and 2 < case.registers[6] <= 0o342:
        return fields
    if other >= 0o400:
        return set()
    # the second service of SIMH finds no stack
    stuck = stopped(theirs) and stack < 0o400 and (ours["PC"] in HANDLED or case.registers[6] <= 6)
    if stuck and not had_fatal(ours) or had_fatal(ours) and not stopped(theirs):
        return fields
    frame = {"KSP", "PC", "PSW", "777576", f"{other:06o}", f"{other + 2:06o}"}
    return {name for name in fields if name in frame or is_page(name)} if other == stack - 4 else set()


def early_codes(case, ours, theirs, fields):
    if one_operand(case) not in EARLY:
        return set()
    # the status word itself may be the pointer to the operand
    pointed = case.registers[case.instruction & 7] in (0, 0o177776) and case.instruction & 0o70 in (0o30, 0o50)
    return fields if pointed else pushed_codes(ours, theirs, fields)


def pushed_codes(ours, theirs, fields):
    """Words in memory whose codes differ, where a reference's fault has pushed the status."""
    return within(ours, theirs, fields - {"PSW"}, 0o17) if ours["PC"] in (FAULT, ABORT) else set()


def modified(case, ours, theirs, fields):
    if not modifies(case):
        return set()
    if octal(theirs, "777572") & 0o20000 and not octal(ours, "777572") & 0o160000:
        return fields
    read_only = within(ours, theirs, fields & {"777572"}, 0o20000)
    # (W, and where SWAB turns the page's own descriptor, which SIMH reads with W set, the bit to which that goes)
    written = within(ours, theirs, set(filter(is_page, fields)), 0o40100 if one_operand(case) == 3 else 0o100)
    return read_only | written | pushed_codes(ours, theirs, fields)


def divides(case, ours, theirs, fields):
    near = within(ours, theirs, fields, 0o14) if case.instruction >> 9 == 0o71 else set()
    return {name for name in near if octal(ours, name) & octal(theirs, name) & 2}


def returns(case, ours, theirs, fields):
    return fields if case.instruction in (2, 6) and case.registers[9] & 0o20 != 0 else set()


def pops(case, ours, theirs, fields):
    word = case.instruction
    if word >> 3 != 0o20 and word not in (2, 6) and word >> 6 not in (0o64, 0o66):
        return set()
    # the service's pushes go to where the pop failed, or below it
    if had_fatal(ours) and octal(theirs, "KSP") == case.registers[6] - 4:
        return fields
    return {name for name in fields & {"KSP", "USP"} if octal(ours, name) == octal(theirs, name) + 2}


def without_pages(case, ours, theirs, fields):
    return fields & {"777572"} if octal(ours, "777572") >> 5 & 3 in (1, 2) else set()


def may_reach(case, first, last):
    """Whether an operand may lie from the first to the last address: where a register points, as it is or stepped back
    once or twice, by an index, or by a pointer at one of these."""
    general = case.registers[:8]
    behind = [case.memory.get(case.registers[8] + step, 0) for step in (2, 4)]
    stepped = [(word - step) % 65536 for word in general for step in (0, 2, 4)]
    indexed = [(word + more) % 65536 for word in general for more in behind]
    pointers = [case.memory.get(word, 0) for word in (*stepped, *indexed)]
    return any(first <= word <= last for word in (*stepped, *indexed, *behind, *pointers))


def reaches_limit(case, ours, theirs, fields):
    trapped = FAULT in (ours["PC"], theirs["PC"]) or stopped(theirs) or "KSP" in fields
    return fields if may_reach(case, 0o177772, 0o177777) and trapped else set()


def reaches_sr1(case, ours, theirs, fields):
    near = any(0o177570 <= word <= 0o177602 for word in case.registers[:8]) or may_reach(case, 0o177574, 0o177575)
    return fields if near and FAULT in (ours["PC"], theirs["PC"]) else set()


def reads_disk(case, ours, theirs, fields):
    return fields if may_reach(case, 0o177400, 0o177402) or 0o177400 < octal(ours, "PC") <= 0o177402 else set()


def is_foreign(case, ours, theirs, fields):
    return fields if case.instruction >> 9 == 0o7 or case.instruction >> 6 in (0o1065, 0o1066) else set()


KNOWN = [
    Known("words of other models", "the words of CSM, MFPD and MTPD are reserved; SIMH's 11/40 does them", is_foreign),
    Known("RTI and RTT with T", "T is judged when the instruction is done, and RTT is never traced; SIMH judges T as it"
          " was before", returns),
    Known("DIV with V", "N and Z are 0 where DIV sets V; SIMH has them by the numbers", divides),
    Known("codes before the address", "the codes are set after the destination's address is formed; SIMH sets those of"
          " CLR, SXT and MTPI before", early_codes),
    Known("read and then written", "a destination that is read and then written makes two references, and the codes"
          " are set between them; SIMH judges the first as a write", modified),
    Known("pops", "the stack pointer is stepped before the word is read, and stays stepped if that fails; SIMH steps it"
          " after", pops),
    Known("modes 01 and 10", "they have no pages, so a reference in them aborts as non-resident alone; SIMH has pages"
          " for them", without_pages),
    Known("the stack limit", "the limit is the stack limit register's, with a red zone, and the pushes of a service"
          " raise nothing; SIMH's 11/40 has the fixed limit of 400 without a red zone, and judges a service's pushes",
          at_the_limit),
    Known("the fatal service", "a service that meets a trap itself has the fatal service, and the machine goes on or"
          " halts; SIMH stops there", is_fatal),
    Known("pushes onto registers", "PC and status take their new values after both pushes, whatever a push wrote to"
          " 777776; and the stack limit register answers at 777774, which SIMH's 11/40 hasn't", at_the_end),
    Known("the stack limit register", "it answers at 777774; SIMH's 11/40 hasn't got it", reaches_limit),
    Known("SR1", "nothing answers at 777574, since the KT11-D has SR0 and SR2 alone; SIMH's 11/40 has SR1",
          reaches_sr1),
    Known("RKDS of an empty drive", "it is 0 but for bits 15:13, as an operand or as an instruction; SIMH's is another"
          " word", reads_disk),
]


def explain(case, ours, theirs):
    """The names of the known differences that explain those of a case, and the fields that none explains."""
    rest = {name for name in ours if ours[name] != theirs.get(name)}
    names = []
    for one in KNOWN:
        explained = one.explains(case, ours, theirs, rest) if rest else set()
        if explained:
            names.append(one.name)
            rest -= explained
    return names, sorted(rest)
