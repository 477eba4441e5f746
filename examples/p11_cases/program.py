"""The proved program: what a case is as lines of the console, and the state that its answers tell (docs/OPERATOR.md)."""
import os
import re
import subprocess

from cases_reading import PAGES, REGISTERS, SECTOR_BYTES, begin

from .tracing import KWORDS, TOP_OF_MEMORY

DISK_REGISTERS = ("rkds", "rker", "rkcs", "rkwc", "rkba", "rkda")
NUMBERS = ("0", "1", "2", "3", "4", "5", "6", "10", "7", "11")
MOST_DEPOSITED, MOST_EXAMINED = 64, 512
# A NOP at 0: SR2 becomes 0.
CLEAR_SR2 = ("deposit 0 240", "start 0", "step 1", "deposit 0 0")


def deposits(address, words):
    for at in range(0, len(words), MOST_DEPOSITED):
        yield f"deposit {address + 2 * at:o} " + " ".join(f"{word:o}" for word in words[at:at + MOST_DEPOSITED])


class Script(list):
    """The lines that bring the program's machine into a state, as a side of cases_reading.begin."""

    def new(self, kwords):
        self.append("start 0")

    def put(self, address, words):
        self += deposits(address, words)

    def regs(self, words):
        self += [f"set {number} {word:o}" for number, word in zip(NUMBERS, words)]

    def devices(self, switches, clock, keys, packs):
        self += [f"switches {switches:o}", f"clock {clock}"]
        self += [f"mount {drive} {name} {'ro' if protected else 'rw'}" for drive, protected, name in packs]
        if keys:
            self.append("key " + "".join(f"\\{key:03o}" for key in keys))


def is_standing(case):
    """Whether SR0 has causes before the case, so that SR2 stays."""
    return case["initial"].get("sr0", 0) > 1


def beginning(case, folder=None):
    """The lines that bring a machine, whose memory and page registers are 0, into a case's state; packs are files of a folder."""
    script = Script(CLEAR_SR2 if is_standing(case) else ())
    begin(script, case, KWORDS, folder)
    return script


def questions(case):
    """The lines that ask for the state after the turns."""
    yield "regs"
    yield from (f"examine {place:o}" for place in REGISTERS.values())
    yield from (f"examine {place:o} 8" for place in PAGES.values())
    for run in case["initial"]["ram"]:
        for at in range(0, len(run) - 1, MOST_EXAMINED):
            yield f"examine {run[0] + 2 * at:o} {min(MOST_EXAMINED, len(run) - 1 - at)}"


def ending(case):
    """The lines that leave memory and page registers 0 for the next case."""
    for run in case["initial"]["ram"]:
        yield from deposits(run[0], [0] * (len(run) - 1))
    for place in PAGES.values():
        yield from (f"deposit {place + 2 * page:o} 0" for page in range(8))


def lines(case):
    yield from beginning(case)
    yield f"step {case['turns']}"
    yield from questions(case)


class Fault(Exception):
    """The program answers something else than it should."""


def answered(command, script):
    """The lines that the program answers to those of a script."""
    done = subprocess.run(command, input="\n".join([*script, ""]).encode(), capture_output=True)
    if done.returncode:
        raise Fault(f"{command[0]} ends with status {done.returncode}: {done.stderr.decode('latin-1')[-200:]}")
    return done.stdout.decode("latin-1").splitlines()


class Answers:
    """The answers to the lines of cases, in their order."""

    def __init__(self, said):
        self.said, self.at = said, 0

    def next(self, begins=""):
        """The next answer that isn't a plain OK."""
        while self.said[self.at:self.at + 1] == ["OK"]:
            self.at += 1
        if self.at == len(self.said):
            raise Fault(f"p11 answers nothing where {begins or 'an answer'!r} was expected")
        line = self.said[self.at]
        self.at += 1
        if not line.startswith(begins):
            raise Fault(f"p11 answers {line!r} where {begins!r} was expected")
        return line

    def words(self, count):
        return [int(self.next("EXAM").split()[2], 8) for _ in range(count)]

    def state(self, case):
        """The state after a case's turns, with the words of its memory by their addresses."""
        if is_standing(case):
            self.next("STOP")
        self.stop()
        return self.registers(case)

    def stop(self):
        """What was typed in a run, and how it ended."""
        line, typed = self.next(), ""
        if line.startswith("TTY "):
            typed, line = line[4:], self.next("STOP")
        return unescaped(typed), line

    def devices(self, typed, pack):
        """What devices show, and the sectors that were written to the pack, which is saved in a file."""
        clock, line, disk = (self.next(name).split() for name in ("KW11", "DL11", "RK11"))
        drives = [self.next("DRIVE").split() for _ in range(8)]
        self.next("MMU")
        requests = [int(word) for word in self.next("REQ").split()[1:]]
        found = {"lks": int(clock[1], 8), **{name: int(word, 8) for name, word in zip(("rcsr", "rbuf", "xcsr"), line[1:])},
                 "keys": int(line[5]), "typed": typed,
                 **{name: int(word, 8) for name, word in zip(DISK_REGISTERS, disk[1:])}, "requests": requests, "packs": []}
        for drive in drives:
            if drive[2] != "empty":
                changed = [int(word) for word in self.next("CHANGED").split()[2:]]
                found["packs"].append({"drive": int(drive[1]), "protected": drive[2] == "ro", "cylinder": int(drive[4]),
                                       "sectors": [[number, sector_of(pack, number)] for number in changed]})
        return found

    def registers(self, case):
        found = {"r": [int(word, 8) for word in self.next("REGS").split()[1:]]}
        _, kernel, user, _, program, _, status = self.next("SP").split()
        found.update(ksp=int(kernel, 8), usp=int(user, 8), pc=int(program, 8), ps=int(status, 8))
        found["run"] = self.next("TURN").split()[2]
        found.update(zip(REGISTERS, self.words(len(REGISTERS))))
        found.update((name, self.words(8)) for name in PAGES)
        memory = {run[0] + 2 * at: word for run in case["initial"]["ram"] for at, word in enumerate(self.words(len(run) - 1))}
        return found, memory


def sector_of(pack, number):
    with open(pack, "rb") as file:
        file.seek(number * SECTOR_BYTES)
        return file.read(SECTOR_BYTES).hex()


def unescaped(typed):
    """The bytes that a line TTY shows."""
    return [int(code, 8) if code else ord(plain) for code, plain in re.findall(r"\\([0-7]{3})|(.)", typed)]


def with_devices(command, case, folder):
    """The state after a case with devices on a new machine: registers, memory, devices. Packs are files of a folder."""
    script, saved = beginning(case, folder), os.path.join(folder, "saved")
    script += [f"step {case['turns']}", "device"]
    for pack in case["initial"]["devices"]["packs"]:
        script += [f"changed {pack['drive']}", f"save {pack['drive']} {saved}"]
    answers = Answers(answered([*command, "--memory", str(KWORDS), "-"], [*script, *questions(case)]))
    typed, _ = answers.stop()
    found = answers.devices(typed, saved)
    return *answers.registers(case), found


def states(command, cases):
    """The states after cases, one after another on one machine, between which memory and page registers are cleared; and,
    as a check that nothing else was written, the words of memory that aren't 0 behind the last."""
    script = [line for case in cases for line in (*lines(case), *ending(case))]
    script += [f"examine {first:o} {MOST_EXAMINED}" for first in range(0, TOP_OF_MEMORY, 2 * MOST_EXAMINED)]
    answers = Answers(answered([*command, "--memory", str(KWORDS), "-"], script))
    found = [answers.state(case) for case in cases]
    rest = [line for line in answers.said[answers.at:] if line != "OK" and not line.endswith(" 000000")]
    if rest:
        raise Fault(f"p11 has written to a word that the case doesn't name: {rest[0]}")
    return found
