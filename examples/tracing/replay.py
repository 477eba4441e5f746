"""A script's turns, counted from its first one, and the machine as it stands before any of them."""
from console import LINES, Console

RUNS = ("step", "continue")
# how many turns are made with one write: few enough for a pipe to hold the lines
BATCH = 1000
# `examine` takes the key that stands there
RECEIVER_BUFFER = 0o777562


def word_of(answer):
    """The word that the answer to `examine` shows, or None if nothing answers there."""
    words = answer[0].split()
    return int(words[2], 8) if words[0] == "EXAM" else None


def question_of(address):
    """The line that shows the word at a bus address and changes nothing, and what reads the word off its answer."""
    if address == RECEIVER_BUFFER:
        return "device", lambda answer: int(answer[1].split()[2], 8)
    return f"examine {address:o}", word_of


def word_at(console, address):
    """The word at a bus address, or None where nothing answers."""
    line, read = question_of(address)
    return read(console.ask(line))


class Script:
    """The lines of a script that are answered, without `save`, and how many turns each of its runs made.

    `stop` is the answer to the last run, as words."""

    def __init__(self, program, options, text):
        self.program, self.options = program, options
        self.lines = []
        for number, line in enumerate(text.splitlines(), 1):
            words = line.split()
            if words and not words[0].startswith("#") and words[0] != "save":
                self.lines.append((number, " ".join(words)))
        self.turns, self.stop, self.refused = [], None, []
        console = self.console()
        for number, line in self.lines:
            answer = console.ask(line)[-1].split()
            if answer[0] == "?":
                self.refused.append((number, " ".join(answer)))
            is_run = line.split()[0] in RUNS and answer[0] == "STOP"
            self.turns.append(int(answer[2]) if is_run else None)
            self.stop = answer if is_run else self.stop
        console.close()
        if self.stop is None:
            raise ValueError("the script has no run: no `step` and no `continue` that was done")
        self.total = sum(turns or 0 for turns in self.turns)

    def console(self):
        return Console(self.program, self.options)


class Cursor:
    """The machine of a script after some of its turns, which goes forward only."""

    def __init__(self, script, turn=0):
        self.script, self.console = script, script.console()
        self.turn, self.line, self.left = 0, 0, 0
        for _ in self.console.ask_all(list(self.lines(turn))):
            pass

    def lines(self, turns):
        """The lines for the console that make so many more turns, with those of the script between its runs."""
        while turns and (self.left or self.line < len(self.script.lines)):
            if not self.left:
                yield from self.lines_to_run()
                continue
            some = min(turns, self.left)
            self.turn, self.left, turns = self.turn + some, self.left - some, turns - some
            yield f"step {some}"

    def lines_to_run(self):
        """The script's lines up to its next run that makes a turn."""
        while not self.left and self.line < len(self.script.lines):
            (_, line), turns = self.script.lines[self.line], self.script.turns[self.line]
            self.line += 1
            self.left = turns or 0
            if turns is None:
                yield line

    def advance(self, turns=1):
        """Makes so many turns."""
        for _ in self.console.ask_all(list(self.lines(turns))):
            pass

    def watched(self, turns, question):
        """Makes so many turns of this run, and asks the question behind each: the answers, one after another."""
        places, pipes = range(LINES.get(question, 1)), self.console.process
        read = pipes.stdout.readline
        for first in range(0, turns, BATCH):
            some = min(BATCH, turns - first)
            pipes.stdin.write(f"step 1\n{question}\n" * some)
            pipes.stdin.flush()
            for _ in range(some):
                # what was typed comes before the turn's end
                while not (line := read()).startswith("STOP"):
                    if not line:
                        raise ValueError("p11 ended before it answered: step 1")
                self.turn, self.left = self.turn + 1, self.left - 1
                yield [read().rstrip("\n") for _ in places]

    def arrive(self):
        """Does the script's lines before the next turn."""
        for _ in self.lines_done():
            pass

    def lines_done(self):
        """Does the script's lines before the next turn one by one; each as its number and text."""
        while not self.left and self.line < len(self.script.lines):
            number, text = self.script.lines[self.line]
            turns = self.script.turns[self.line]
            self.line, self.left = self.line + 1, turns or 0
            if turns is None:
                self.console.ask(text)
                yield number, text

    def word(self, address):
        """The word at a bus address, or None where nothing answers."""
        return word_at(self.console, address)

    def close(self):
        """Ends the session, behind the answers that nobody has read."""
        self.console.process.stdin.close()
        self.console.process.stdout.read()
        self.console.close()
