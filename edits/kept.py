"""Refusals that were seen on this machine, so that the same isn't tried again.

A refusal is kept under a sum of all that its check read: the edit, the files of its crate, its line of crates.txt, the libraries
below it as `rt ci` proved them, these scripts, and of the toolchain the file KIT-ID and the name, size and time of each other
file. What isn't refused, or is bad, is tried each time.
"""
import glob
import hashlib
import os

from proved import folder_of_kit

HERE = os.path.dirname(os.path.realpath(__file__))
SCRIPTS = [os.path.join(HERE, "try"), os.path.join(HERE, "..", "tools", "functions.py"), *sorted(glob.glob(os.path.join(HERE, "*.py")))]
OF_KIT = ("bin", "logic_built", "rattle/logic", "rlibs")


def files_below(folder):
    """The paths of all files in a folder, in order."""
    return sorted(os.path.join(at, name) for at, _, names in os.walk(folder) for name in names)


def sum_of(parts):
    """The sum of a list of texts, bytes and numbers."""
    return hashlib.sha256(repr(parts).encode()).hexdigest()


def contents(folder, paths):
    found = []
    for path in paths:
        with open(path, "rb") as file:
            found.append((os.path.relpath(path, folder), hashlib.sha256(file.read()).hexdigest()))
    return found


def sum_of_kit(kit):
    told = []
    for path in [path for part in OF_KIT for path in files_below(os.path.join(kit, part))]:
        seen = os.stat(path)
        told.append((os.path.relpath(path, kit), seen.st_size, seen.st_mtime_ns))
    return sum_of([contents(kit, [os.path.join(kit, "KIT-ID")]), told])


class Kept:
    """The refusals that were seen, for crates that stand proved. With `is_anew` none is found, and new ones are put down."""

    def __init__(self, crates, is_anew):
        cache = os.environ.get("XDG_CACHE_HOME") or os.path.join(os.path.expanduser("~"), ".cache")
        self.folder, self.is_anew = os.path.join(cache, "p11-edits"), is_anew
        self.crates, self.sums = crates, {}
        self.tools = sum_of([sum_of_kit(folder_of_kit()), contents(HERE, SCRIPTS)])

    def sum_of_crate(self, crate):
        """The sum of all that a check of the crate reads but an edit."""
        if crate not in self.sums:
            folder = os.path.join(self.crates.top, "crates", crate)
            own = [path for part in ("src", "specs", "proofs") for path in files_below(os.path.join(folder, part))]
            below = [files_below(os.path.join(self.crates.top, "crates", it, "out", "rlib")) for it in self.crates.below(crate)]
            line = (crate, self.crates.kinds[crate], self.crates.libraries[crate])
            self.sums[crate] = sum_of([self.tools, line, contents(folder, own), [contents(self.crates.top, it) for it in below]])
        return self.sums[crate]

    def path(self, edit):
        return os.path.join(self.folder, sum_of([self.sum_of_crate(edit.crate), edit.text]))

    def find(self, edit):
        """Why the edit was refused, if that is known."""
        if self.is_anew or not os.path.isfile(self.path(edit)):
            return None
        with open(self.path(edit), encoding="utf-8") as file:
            return file.read()

    def keep(self, edit, why):
        os.makedirs(self.folder, exist_ok=True)
        part = f"{self.path(edit)}.{os.getpid()}"
        with open(part, "w", encoding="utf-8") as file:
            file.write(why)
        os.replace(part, self.path(edit))
