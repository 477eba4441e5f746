"""The scripts that are timed and counted, how long a command takes, and on which machine."""
import difflib
import gzip
import os
import re
import subprocess
import sys
from pathlib import Path

HERE = Path(__file__).resolve().parent
PROGRAMS = HERE.parent / "soak/programs"
# The scripts with mapping off; the first eight have one with mapping on besides.
SCRIPTS = """branch registers memory eis calls sort sieve interpreter traps services pages far_calls rewrites misses
    polling ticks waiting lisp-program queens-program pi-program matrix-program""".split()
MAPPED = [f"{loop}-mapped" for loop in SCRIPTS[:8]]
STEP = re.compile(r"^step \d{4,}$", re.M)


def tapes(folder):
    """Puts the tapes that the scripts load into a folder."""
    for name in SCRIPTS:
        if name.endswith("-program"):
            tape = f"{name.removesuffix('-program')}.tape"
            (folder / tape).write_bytes(gzip.decompress((PROGRAMS / f"{tape}.gz").read_bytes()))


def seconds(words, out, folder=None):
    """The processor time that a command takes, in a folder, whose output goes to a file."""
    with open(out, "wb") as file:
        child = subprocess.Popen(words, stdin=subprocess.DEVNULL, stdout=file, cwd=folder)
        _, status, used = os.wait4(child.pid, 0)
        child.returncode = os.waitstatus_to_exitcode(status)
    return used.ru_utime + used.ru_stime


def host():
    """The processor's name, and how many of its cores there are."""
    model = re.search(r"^model name[^:]*: *(.*)$", Path("/proc/cpuinfo").read_text(), re.M)[1]
    return f"{model}, {os.cpu_count()} cores"


def turns_of(name):
    """How many turns a script makes."""
    return int(STEP.search((HERE / f"{name}.p11").read_text())[0].split()[1])


def compare(name, answers):
    """Ends with status 1 if the answers to a script aren't those of its .out file."""
    expected = f"{name}.out"
    lines = (HERE / expected).read_text().splitlines(), answers.read_text().splitlines()
    differing = list(difflib.unified_diff(*lines, expected, name, lineterm=""))
    if differing:
        print(f"bench: the answers of {name}.p11 differ from {expected}:", *differing, sep="\n", file=sys.stderr)
        sys.exit(1)


class Timed:
    """A program's runs on one script: the seconds of each, and of each with no code."""

    def __init__(self, words, script, folder):
        """WORDS run the program on the script, a file of this folder."""
        text = (HERE / script).read_text()
        self.folder, self.answers = folder, folder / f"{script}.answers"
        self.with_code, self.without_code = [], []
        self.commands = []
        for kind, lines in (("whole", text), ("idle", STEP.sub("step 1", text))):
            (folder / f"{kind}-{script}").write_text(lines)
            self.commands.append([*words, f"{kind}-{script}"])

    def run(self):
        """Runs it once with its code and once with none. The answers are those of the run with code."""
        whole, idle = self.commands
        self.without_code.append(seconds(idle, self.folder / "idle", self.folder))
        self.with_code.append(seconds(whole, self.answers, self.folder))

    def seconds(self):
        """The seconds that the code takes."""
        return min(self.with_code) - min(self.without_code)
