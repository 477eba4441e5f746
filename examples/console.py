"""p11 as a program that is asked line by line, for Python programs that talk to it."""
import os
import shutil
import subprocess

LINES = {"regs": 3, "device": 13}
# how many lines are written before their answers are read: few enough for a pipe to hold them
AHEAD = 200
TOP = os.path.dirname(os.path.dirname(os.path.realpath(__file__)))


def find_program():
    """The p11 beside these examples: of the repository or of the installation, or else the one in PATH; OSError: there is none,
    or the repository's can't be built."""
    build = os.path.join(TOP, "build")
    if os.path.isfile(build) and os.access(build, os.X_OK):
        built = subprocess.run([build, "p11_run"], stdout=subprocess.PIPE, text=True)
        if built.returncode:
            raise OSError(2, "it can't be built; --program names another", "p11")
        return built.stdout.strip()
    installed = os.path.join(TOP, "..", "..", "..", "bin", "p11")
    found = installed if os.access(installed, os.X_OK) else shutil.which("p11")
    if found is None:
        raise FileNotFoundError(2, "there is no such program; --program names one", "p11")
    return found


def is_whole(line, answer):
    """Whether these lines are all of the answer to a line."""
    words = line.split()
    if answer[-1].startswith("?"):
        return True
    if words[0] in ("step", "continue"):
        return answer[-1].startswith("STOP")
    if words[0] == "examine":
        return len(answer) == int((words + ["1"])[2])
    return len(answer) == LINES.get(words[0], 1)


class Console:
    """A session of `p11 -`, which is told lines that each have an answer: no blank lines, no remarks."""

    def __init__(self, program, options=()):
        self.process = subprocess.Popen([program, *options, "-"], stdin=subprocess.PIPE, stdout=subprocess.PIPE,
                                        text=True, encoding="latin-1")

    def answer(self, line):
        """The lines of the answer to a line that has been written."""
        found = []
        while not found or not is_whole(line, found):
            text = self.process.stdout.readline()
            if not text:
                raise ValueError(f"p11 ended before it answered: {line}")
            found.append(text.rstrip("\n"))
        return found

    def ask_all(self, lines):
        """The answers to lines, one after another."""
        for first in range(0, len(lines), AHEAD):
            some = lines[first:first + AHEAD]
            self.process.stdin.write("".join(line + "\n" for line in some))
            self.process.stdin.flush()
            for line in some:
                yield self.answer(line)

    def ask(self, line):
        return next(self.ask_all([line]))

    def close(self):
        self.process.stdin.close()
        self.process.stdout.close()
        self.process.wait()
