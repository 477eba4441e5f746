"""The scripts that p11-many plays, the files that they name, and what became of them. A module for many; it isn't run by itself."""
import collections
import os
import sys

SHOWN = 20
# The status of a script that was ended, since it took longer than it might (timeout(1)).
LATE = 124
# The file of the results that names the scripts in which a line was refused.
REFUSED = "refused.txt"


class Fault(Exception):
    """Nothing can be played."""


Script = collections.namedtuple("Script", "path name")


def below(folder):
    """The names of the scripts in a folder and in those below it."""
    for place, folders, names in os.walk(folder):
        folders.sort()
        yield from (os.path.relpath(os.path.join(place, name), folder) for name in sorted(names) if name.endswith(".p11"))


def listed():
    """The names of the scripts that standard input gives."""
    for path in (line.rstrip("\n") for line in sys.stdin if line.strip()):
        if os.path.isabs(path) or ".." in path.split("/") or not os.path.isfile(path):
            raise Fault(f"{path}, on standard input, is no script below this folder")
        yield path


def scripts_of(folder):
    """The scripts, each with the name of its folder of results."""
    if folder != "-" and not os.path.isdir(folder):
        raise Fault(f"there is no folder {folder}")
    scripts = {}
    for path in listed() if folder == "-" else below(folder):
        name = os.path.normpath(path).removesuffix(".p11").replace("/", "+")
        if name in scripts:
            raise Fault(f"{scripts[name].path} and {path} would have the same folder of results, {name}")
        scripts[name] = Script(path, name)
    if not scripts:
        raise Fault("standard input names no script" if folder == "-" else f"{folder} has no script, which is a file NAME.p11")
    return list(scripts.values())


def named_in(script):
    """The files that a script reads, and those that it writes, by the names that it has for them."""
    reads, writes = {}, {}
    with open(script, "rb") as lines:
        for words in (line.decode("latin-1").split() for line in lines):
            if words[:1] == ["mount"] and len(words) > 2:
                reads[words[2]] = None
            elif words[:1] == ["load"] and len(words) > 1:
                reads[words[1]] = None
            elif words[:1] == ["save"] and len(words) > 2:
                writes[words[2]] = None
    return list(reads), list(writes)


def read(path):
    with open(path, "rb") as file:
        return file.read()


class Work:
    """The folder that has the scripts, `home`, and that of their results; whether a script may name files `anywhere`, and whether
    it fails where a line is refused (`strict`)."""

    def __init__(self, home, results, anywhere=False, strict=False):
        self.home, self.results, self.anywhere, self.strict = home, results, anywhere, strict

    def script(self, script):
        return os.path.join(self.home, script.path)

    def input(self, script, name):
        """The file that a script means by a name."""
        return os.path.join(os.path.dirname(self.script(script)), name)

    def wanted(self, script):
        """The file that has the answers that are wanted, if there is one."""
        return self.script(script).removesuffix(".p11") + ".out"

    def result(self, script, *parts):
        return os.path.join(self.results, script.name, *parts)

    def fault_of_names(self, script, reads, writes):
        """Why a script can't be played with the files that it names, if it can't."""
        for name in reads + writes:
            if ".." in name.split("/"):
                return f"names {name}, which isn't below its folder"
            if name.startswith("/") and not self.anywhere and (name != os.devnull or name in writes):
                return f"names {name}, which isn't below its folder; with --anywhere it may"
            if name in reads and name not in writes and not name.startswith("/") and not os.path.isfile(self.input(script, name)):
                return f"names {name}, and there is no file {self.input(script, name)}"
        return None

    def fault_of_answers(self, script, status, errors, answers):
        """Why a script that was played has failed, if it has."""
        wanted = self.wanted(script)
        if status == LATE:
            return "took longer than --seconds, and was ended"
        if status:
            return f"ended with status {status}" + (f": {errors.strip()}" if errors.strip() else "")
        if os.path.exists(wanted) and read(wanted) != answers:
            return f"answers other than {wanted}"
        refused = self.refusals(script, answers)
        if self.strict and refused:
            return f"has {len(refused)} refused line{'s' if len(refused) > 1 else ''}, the first with {refused[0]}"
        return None

    def refusals(self, script, answers):
        """The answers to refused lines, where no NAME.out says what is wanted."""
        if os.path.exists(self.wanted(script)):
            return []
        return [line.decode("latin-1") for line in answers.split(b"\n") if line.startswith(b"?")]


class Told:
    """What became of scripts: how many are played, which failed and why, and in which a line was refused."""

    def __init__(self):
        self.played, self.failed, self.refused = 0, [], []

    def not_played(self, script, fault):
        self.failed.append((script.path, fault or "wasn't played to its end; --resume plays it"))

    def is_played(self, script, fault, refusals):
        self.played += 1
        if fault:
            self.failed.append((script.path, fault))
        if refusals:
            self.refused.append(script.path)

    def join(self, other):
        self.played += other.played
        self.failed += other.failed
        self.refused += other.refused

    def print(self, work, count):
        """Prints it, of so many scripts, and gives the exit status."""
        for path, fault in sorted(self.failed):
            print(f"{path} {fault}")
        print(f"p11-many: {self.played} of {count} scripts are played, {len(self.failed)} failed; {work.results} has the answers")
        self.list_refused(work)
        return 1 if self.failed else 0

    def list_refused(self, work):
        """Prints in how many scripts a line was refused, and in which, and leaves their names in a file."""
        path, names = os.path.join(work.results, REFUSED), sorted(self.refused)
        if names:
            more = f" and {len(names) - SHOWN} more" if len(names) > SHOWN else ""
            option = "" if work.strict else "; --strict fails them"
            print(f"p11-many: lines are refused in {len(names)} of {self.played}: {', '.join(names[:SHOWN])}{more} ({path} has all{option})")
            with open(path, "w") as file:
                file.write("".join(name + "\n" for name in names))
        elif os.path.exists(path):
            os.unlink(path)
