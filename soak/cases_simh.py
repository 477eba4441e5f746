"""Cases of a file on SIMH's PDP-11 as an 11/40: what differs has to be of a rule that the case names, and of a row of
OPERATOR's table. A module for soak/cases; it isn't run by itself."""
import itertools
import os
import re
import sys

HERE = os.path.dirname(os.path.abspath(__file__))
sys.path[:0] = [HERE, os.path.join(HERE, "..", "examples")]
import simh_talk as talk  # noqa: E402
from cases_reading import PAGES, after, before, differences  # noqa: E402

# Rows of OPERATOR's table, and the choices of the project that are theirs.
KNOWN = [
    ("words of other models", {"other-models"}),
    ("RTI and RTT with T", {"trace"}),
    ("DIV with V", {"div-overflow"}),
    ("codes before the address", {"codes-before-write"}),
    ("read and then written", {"two-references"}),
    ("pops", {"done-stays"}),
    ("modes 01 and 10", {"modes-without-pages", "stack-of-other-modes"}),
    ("the stack limit", {"judged-steps", "yellow-zone", "red-zone", "nothing-else-judged", "pushes-unjudged"}),
    ("the fatal service", {"fatal-service"}),
    ("pushes onto registers", {"pushes-onto-registers"}),
    ("777774", {"unnamed-bits"}),
    ("SR1", {"sr1-and-sr3"}),
    ("causes that stand", {"causes-stand"}),
    ("extension words", {"pc-past-extension"}),
    ("SR0's other bits", {"sr0-write"}),
]
BATCH = 100
MARK = "CASE"
SR0, SR2 = 0o777572, 0o777576
STATE = ("ksp", "usp", "pc", "ps")


def runs_of(case):
    return [(run[0], run[0] + 2 * (len(run) - 2), run[1:]) for run in case["initial"]["ram"]]


def lines(case):
    """A case as lines of SIMH's console. Where a trap ends it, SIMH makes its service at the next step: a breakpoint stands at
    the handler."""
    state = before(case)
    yield f"echo {MARK}"
    yield "reset cpu"
    for first, _, words in runs_of(case):
        yield from (f"d {talk.wide(first + 2 * at):o} {word:o}" for at, word in enumerate(words))
    for name, place in PAGES.items():
        yield from (f"d {talk.wide(place + 2 * at):o} {word:o}" for at, word in enumerate(state[name]))
    for name, word in zip(talk.REGISTERS, (*state["r"], *(state[name] for name in STATE))):
        yield f"d {name} {word:o}"
    yield f"d {talk.wide(SR0):o} {state['sr0']:o}"
    yield from steps(case)
    yield "e " + ",".join([*talk.REGISTERS, "wait", "traps"]).lower()
    yield from (f"e {talk.wide(place):o}" for place in (SR0, SR2))
    yield from (f"e {talk.wide(place):o}-{talk.wide(place + 14):o}" for place in PAGES.values())
    yield from (f"e {talk.wide(first):o}-{talk.wide(last):o}" for first, last, _ in runs_of(case))
    yield from (f"d {talk.wide(first):o}-{talk.wide(last):o} 0" for first, last, _ in runs_of(case))


def steps(case):
    """The turns. A fetch that fails is no step of SIMH's, which comes to the handler in the same one."""
    handler = after(case)["pc"]
    if "fetch" in case["own"]:
        yield f"break {handler:o}"
    yield f"step {case['turns']}"
    if case["traps"] and "fetch" not in case["own"] and after(case)["run"] != "halted":
        yield from (f"break {handler:o}", "step 1")
    if case["traps"]:
        yield f"nobreak {handler:o}"


def is_comparable(case):
    """Whether SIMH can be stopped after just these turns: it has no devices that act in turns, and in a sequence no step for a
    fetch that fails."""
    return case["kind"] == "instruction" or case["kind"] == "sequence" and "fetch" not in case["own"]


def state_of(case, said):
    """The state that SIMH shows after a case; how it stopped."""
    shown, stop = {}, ""
    for line in said:
        if ", PC: " in line:
            stop = line.partition(",")[0]
        elif found := re.fullmatch(r"(\w+):\t(\d+)", line):
            place = found[1] if found[1].isalpha() or found[1] in talk.REGISTERS else int(found[1], 8) % 0o1000000
            shown[place] = int(found[2], 8)
    registers = [shown[name] for name in talk.REGISTERS]
    state = {"r": registers[:6], **dict(zip(STATE, registers[6:])), "sr0": shown[SR0], "sr2": shown[SR2]}
    between = shown["TRAPS"] and not case["traps"]
    state["run"] = "halted" if stop.startswith("HALT") else "waiting" if shown["WAIT"] else "between" if between else "ready"
    state.update((name, [shown[place + 2 * at] for at in range(8)]) for name, place in PAGES.items())
    state["ram"] = {first + 2 * at: shown[first + 2 * at] for first, _, words in runs_of(case) for at in range(len(words))}
    return state, stop


def states(simh, cases):
    script = [*talk.BEGIN, *(line for case in cases for line in lines(case)), f"echo {MARK}", "quit"]
    said = talk.answers_of([simh], script)
    marks = [at for at, line in enumerate(said) if line == MARK]
    for case, (first, last) in zip(cases, itertools.pairwise(marks), strict=True):
        yield case, *state_of(case, said[first:last])


def row_of(case):
    """The row of the table that has the rule of a case that differs."""
    return next((name for name, rules in KNOWN if rules & set(case["own"])), None)


def outcomes(simh, cases):
    """Each case that is comparable, with its differences and how SIMH stopped."""
    cases = filter(is_comparable, cases)
    while batch := list(itertools.islice(cases, BATCH)):
        for case, state, stop in states(simh, batch):
            yield case, list(differences(after(case), state, ())), stop
