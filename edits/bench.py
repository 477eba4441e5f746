"""A copy of a crate in which its edits are tried, one after another."""
import glob
import os
import re
import subprocess
import tempfile
import threading

from batches import Calls, made_together
from edit import Twin
from functions import place_of
from proved import words_of_check
from verdict import BAD, REFUSED, judge, judge_start, written


class Over(Exception):
    """A signal has ended the run, so no check begins."""


class Checks:
    """The checks that run, so that a signal can end them."""

    def __init__(self):
        self.running, self.is_over, self.lock = set(), False, threading.Lock()

    def run(self, words, folder):
        """What a command said, and the seconds of processor that it took."""
        with tempfile.TemporaryFile("w+", errors="replace") as said:
            with self.lock:
                if self.is_over:
                    raise Over()
                child = subprocess.Popen(words, cwd=folder, stdin=subprocess.DEVNULL, stdout=said, stderr=subprocess.STDOUT)
                self.running.add(child)
            _, status, used = os.wait4(child.pid, 0)
            with self.lock:
                child.returncode = os.waitstatus_to_exitcode(status)
                self.running.remove(child)
                if self.is_over:
                    raise Over()
            said.seek(0)
            return said.read(), used.ru_utime + used.ru_stime

    def end(self):
        with self.lock:
            self.is_over = True
            for child in self.running:
                child.kill()


class Bench:
    """The copy in `place` of one of the crates that are proved. What a check has proved there serves the next one."""

    def __init__(self, crates, crate, place, checks):
        self.folder, self.checks, proved = os.path.join(place, crate), checks, os.path.join(place, "proved")
        crates.copy(crate, self.folder)
        os.mkdir(proved)
        self.words = [*words_of_check(crates, crate), "--incremental", proved]
        self.sources = sources_of(self.folder)
        self.calls, self.checked = Calls(self.sources), set()

    def try_together(self, edits):
        """What came of each of these edits, made together: the verdict, why, and its part of the seconds of processor."""
        sources = made_together(edits, self.sources)
        self.write(sources)
        whole = [edit for edit in edits if not isinstance(edit, Twin)]
        soon = whole if self.are_soon_checked(whole) else []
        found, seconds = self.start([edit for edit in edits if not edit.caller and edit not in soon])
        more, checking = self.check([edit for edit in whole if edit not in found], sources)
        self.write(self.sources)
        found |= more
        each = (seconds + checking) / len(edits)
        return [(*found.get(edit, (BAD, "a copy of its function doesn't tell")), each) for edit in edits]

    def reached(self, edits):
        """The functions to which those of these edits lead."""
        return set().union(*(self.calls.reached(edit.judged()) for edit in edits))

    def are_soon_checked(self, edits):
        """Whether a check of these edits takes no longer than a start before it, which may leave open those with a proof file: they
        lead to few functions that weren't checked here."""
        return bool(self.answers_of(edits)) and len(self.reached(edits) - self.checked) <= 4 * len(edits)

    def answers_of(self, edits):
        """The texts of the proof files by which the functions' goals are proved that the prover's own search leaves open, by path."""
        found = {}
        for edit in edits:
            for path in self.proofs_of(edit, "Answers.antt"):
                with open(os.path.join(self.folder, path), encoding="utf-8") as file:
                    found[path] = file.read()
        return found

    def proofs_of(self, edit, name):
        """The paths of this proof file of an edit's function."""
        place = [part for part in edit.judged().split("::") if part != edit.crate]
        return glob.glob(os.path.join("proofs", "**", *place, name), root_dir=self.folder, recursive=True)

    def for_twins(self, twins, name):
        """The texts of this proof file of the functions of which these edits have copies, by the paths at which those of the copies
        would stand."""
        found = {}
        for twin in twins:
            function = twin.edit.judged().split("::")[-1]
            for path in self.proofs_of(twin.edit, name):
                with open(os.path.join(self.folder, path), encoding="utf-8") as file:
                    text = re.sub(rf"\.{function}\.(Given|Goals)\b", rf".{function}{twin.suffix}.\1", file.read())
                found[f"{os.path.dirname(path)}{twin.suffix}/{name}"] = text
        return found

    def start(self, edits):
        """The verdicts on those of these edits for which a start is enough, and the seconds of processor. The prover starts no file
        that is there, so the functions' own ones are set aside."""
        if not edits:
            return {}, 0.0
        twins = [edit for edit in edits if isinstance(edit, Twin)]
        answers, of_twins = self.answers_of(edits), self.for_twins(twins, "Answers.antt")
        loops = self.for_twins(twins, "Invariants.antt")
        for path in answers:
            os.remove(os.path.join(self.folder, path))
        self.write(loops)
        text, seconds = self.checks.run([*self.words, *(word for edit in edits for word in ("--start", edit.function))], self.folder)
        found = {edit: judge_start(edit, text, self.folder, answers | of_twins) for edit in edits}
        for path in [*loops, *sum(written(text, edits[0].crate).values(), [])]:
            os.remove(os.path.join(self.folder, path))
        self.write(answers)
        return {edit: outcome for edit, outcome in found.items() if outcome}, seconds

    def check(self, edits, sources):
        """The verdicts on these edits by the check of their functions and of what these call, and the seconds of processor."""
        if not edits:
            return {}, 0.0
        self.checked |= self.reached(edits)
        names = dict.fromkeys(name for edit in edits for name in edit.names())
        text, seconds = self.checks.run([*self.words, *(word for name in names for word in ("--only", name))], self.folder)
        return {edit: judge(edit, text, *place_in(edit, sources)) for edit in edits}, seconds

    def write(self, sources):
        for path, text in sources.items():
            path = os.path.join(self.folder, path)
            os.makedirs(os.path.dirname(path), exist_ok=True)
            with open(path, "w", encoding="utf-8") as file:
                file.write(text)

    def try_batch(self, edits):
        """What came of each of these edits. One that isn't refused together with others is tried alone."""
        found = self.try_together(edits)
        if len(edits) == 1:
            return found
        for at, edit in enumerate(edits):
            if found[at][0] != REFUSED:
                [(verdict, why, seconds)] = self.try_together([edit.alone()])
                found[at] = verdict, why, found[at][2] + seconds
        return found


def place_in(edit, sources):
    """The file and the lines of the function that has to be refused, after the change."""
    for path in [edit.file, *sources]:
        function = place_of(edit.judged(), sources[path])
        if function:
            return path, function.lines(sources[path])
    return edit.file, (0, -1)


def sources_of(folder):
    """The texts of a crate's program, by their paths in its folder."""
    found = {}
    for path in sorted(glob.glob("src/**/*.rt", root_dir=folder, recursive=True)):
        with open(os.path.join(folder, path), encoding="utf-8") as file:
            found[path] = file.read()
    return found
