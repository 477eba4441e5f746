"""How soak/simh talks to both machines: a case as lines for each, and the outcomes from what each answers."""
import re
import subprocess
import tempfile

import simh_cases as made

REGISTERS = ["R0", "R1", "R2", "R3", "R4", "R5", "KSP", "USP", "PC", "PSW"]
NUMBERS = [0, 1, 2, 3, 4, 5, 6, 0o10, 7, 0o11]
SHOWN = [(0, 0o16), (0o320, 0o420), (0o660, 0o716), (0o2760, 0o3036), (0o6000, 0o6216), (0o24000, 0o24076),
         (0o44000, 0o44036), (0o64060, 0o64116), (0o772300, 0o772316), (0o772340, 0o772356), (0o777572, 0o777572),
         (0o777576, 0o777576), (0o777600, 0o777616), (0o777640, 0o777656)]
STEPS = 40
EMPTY = "rha ptr ptp cr lpt dz rl hk rx rp rq tm tq".split()
# SIMH's I/O page is there once an instruction was made
BEGIN = [f"set {name} disable" for name in EMPTY] + ["set cpu 11/40", "set cpu 256K", "set cpu noidle", "d pc 1000",
                                                     "step 1"]
STOPS = {"HALT": "halt", "Step": "turns"}


def rows(memory):
    """Runs of words that lie one behind another, of at most 64."""
    found = []
    for address in sorted(memory):
        if found and address == found[-1][0] + 2 * len(found[-1][1]) and len(found[-1][1]) < 64:
            found[-1][1].append(memory[address])
        else:
            found.append((address, [memory[address]]))
    return found


def pages_of(case):
    return zip(made.PAGE_REGISTERS, case.pages or (0,) * len(made.PAGE_REGISTERS))


def for_p11(case):
    for address, words in rows(case.memory):
        yield f"deposit {address:o} " + " ".join(f"{word:o}" for word in words)
    yield f"start {case.registers[8] & ~1:o}"
    for address, word in pages_of(case):
        yield f"deposit {address:o} {word:o}"
    for number, word in zip(NUMBERS, case.registers):
        yield f"set {number:o} {word:o}"
    if case.pages:
        yield "deposit 777572 1"
    yield f"step {STEPS}"
    yield "regs"
    for first, last in SHOWN:
        yield f"examine {first:o} {(last - first) // 2 + 1}"


def is_idle(line):
    """Whether a line is nothing to a reader: it sets what is 0 to 0, or only shows."""
    return re.fullmatch(r"(deposit|set) \d+( 0)+|examine .*", line) is not None


def wide(address):
    """The address as SIMH's console has it: the I/O page is at the end of 22 bits."""
    return address + 0o17000000 if address >= 0o760000 else address


def for_simh(case):
    yield "reset cpu"
    for address, word in [*case.memory.items(), *pages_of(case)]:
        yield f"d {wide(address):o} {word:o}"
    for name, word in zip(REGISTERS, case.registers):
        yield f"d {name} {word:o}"
    yield f"d {wide(0o777572):o} {1 if case.pages else 0}"
    yield f"step {STEPS}"
    yield "e " + ",".join(REGISTERS).lower()
    yield "e " + ",".join(f"{wide(first):o}-{wide(last):o}" for first, last in SHOWN)


def answers_of(command, script):
    with tempfile.NamedTemporaryFile("w") as file:
        file.write("\n".join(script) + "\n")
        file.flush()
        done = subprocess.run(command + [file.name], stdin=subprocess.DEVNULL, capture_output=True, timeout=1800)
    return done.stdout.decode("latin-1").splitlines()


def outcomes_of_p11(lines):
    outcomes = []
    for line in lines:
        words = line.split()
        if words[0] == "STOP":
            outcomes.append({"stop": words[1]})
        elif words[0] == "REGS":
            outcomes[-1].update(zip(REGISTERS, words[1:]))
        elif words[0] == "SP":
            outcomes[-1].update(zip(("KSP", "USP", "PC", "PSW"), (words[1], words[2], words[4], words[6])))
        elif words[0] == "EXAM":
            outcomes[-1][words[1]] = words[2]
        elif words[0] not in ("OK", "TURN", "TTY"):
            raise SystemExit(f"soak/simh: p11 answers {line}")
    return outcomes


def outcomes_of_simh(lines):
    outcomes = []
    for line in lines:
        if ", PC: " in line:
            outcomes.append({"stop": STOPS.get(line.split()[0], line.split(",")[0])})
        elif match := re.fullmatch(r"(\w+):\t(\d+)", line):
            name = match[1] if match[1] in REGISTERS else f"{int(match[1], 8) % 0o1000000:06o}"
            outcomes[-1][name] = match[2]
        elif line.startswith("/"):
            raise SystemExit(f"soak/simh: SIMH doesn't take {line}")
    return outcomes[1:]


def from_p11(program, cases):
    script = [line for case in cases for line in for_p11(case)]
    return outcomes_of_p11(answers_of(program + ["--memory", "124"], script))


def from_simh(simh, cases):
    script = BEGIN + [line for case in cases for line in for_simh(case)] + ["quit"]
    return outcomes_of_simh(answers_of(simh, script))
