"""The crates of a repository, and a copy of some of them that the merge gate has proved.

`rt ci` in such a copy takes what it has proved of the same files on this machine in a second, and proves the rest. It leaves
the libraries there, as those above are proved over them; the check of one function reads them as `rt` itself does.
"""
import functools
import os
import re
import shutil
import signal
import subprocess

LINE = re.compile(r"^([a-z]\w*)( staticlib)?:(.*)$", re.M)


class Unproved(Exception):
    """The crates can't be proved as they are, so nothing is known of any edit; the text is the end of what `rt ci` said."""


def run_gate(room):
    """Runs `rt ci` in a repository: its exit status, and what it says. Where this script is ended, so are all that it has started."""
    gate = subprocess.Popen(["rt", "ci"], cwd=room, stdin=subprocess.DEVNULL, stdout=subprocess.PIPE, stderr=subprocess.STDOUT, text=True, errors="replace",
                            start_new_session=True)
    try:
        said, _ = gate.communicate()
    except BaseException:
        os.killpg(gate.pid, signal.SIGTERM)
        raise
    return gate.returncode, said


class Crates:
    """The crates that crates.txt lists at the top of a repository."""

    def __init__(self, top):
        self.top = top
        with open(os.path.join(top, "crates.txt"), encoding="utf-8") as file:
            found = LINE.findall(file.read())
        self.names = [name for name, _, _ in found]
        self.libraries = {name: listed.split() for name, _, listed in found}
        self.kinds = {name: kind.strip() for name, kind, _ in found}

    def ours(self, crate):
        return [name for name in self.libraries[crate] if name in self.libraries]

    def below(self, crate):
        """The crates that a crate stands on, each behind those that it uses itself."""
        found = []
        for name in self.ours(crate):
            found += [it for it in [*self.below(name), name] if it not in found]
        return found

    def copy(self, crate, to):
        """Copies what is read of a crate's folder: all but what was made in it."""
        shutil.copytree(os.path.join(self.top, "crates", crate), to, ignore=shutil.ignore_patterns("out"))

    def proved_here(self, wanted):
        """These crates, all that stand below some of which `make` has proved here."""
        names = {name for it in wanted for name in self.below(it)}
        missing = [name for name in self.names if name in names and subprocess.run([os.path.join(self.top, "tools", "is-proved"), name]).returncode]
        if missing:
            raise Unproved(f"not proved here: {', '.join(missing)} (make NAME)")
        return self

    def prove(self, wanted, room):
        """Has `rt ci` prove these crates and those below them in a new repository, `room`, and answers the crates there."""
        names = [name for name in self.names if any(name == it or name in self.below(it) for it in wanted)]
        # (what rt takes for the top of a repository, wherever the temporary folder lies)
        os.makedirs(os.path.join(room, ".git"))
        for name in names:
            self.copy(name, os.path.join(room, "crates", name))
        with open(os.path.join(room, "crates.txt"), "w", encoding="utf-8") as file:
            file.writelines(f"{name} {self.kinds[name]}".strip() + f": {' '.join(self.libraries[name])}\n" for name in names)
        if os.path.exists(os.path.join(self.top, "HANDLES")):
            shutil.copy(os.path.join(self.top, "HANDLES"), room)
        status, said = run_gate(room)
        if status:
            raise Unproved("\n".join(said.strip().split("\n")[-12:]))
        return Crates(room)


@functools.lru_cache
def folder_of_kit():
    """The folder of the toolchain."""
    return os.path.dirname(subprocess.run(["rt", "doc"], stdout=subprocess.PIPE, text=True, check=True).stdout.strip())


def words_of_check(crates, crate):
    """The words of a check of one crate over the libraries below it, which are proved, in a copy of the crate's folder."""
    kit, folder = folder_of_kit(), os.path.join(crates.top, "crates")
    root = "src/main.rt" if os.path.exists(os.path.join(folder, crate, "src", "main.rt")) else "src/lib.rt"
    words = [f"{kit}/bin/rattle", "check", "--crate-name", crate, root, "-L", f"dependency={kit}/rlibs"]
    for name in dict.fromkeys(["std", *crates.libraries[crate]]):
        at = f"{folder}/{name}/out/rlib" if name in crates.libraries else f"{kit}/rlibs"
        words += ["--extern", f"{name}={at}/{name}.rlib"]
    for name in crates.below(crate):
        words += ["-L", f"dependency={folder}/{name}/out/rlib"]
    if crates.kinds[crate]:
        words += ["--crate-type", crates.kinds[crate]]
    return [*words, "--antt-project", f"{kit}/rattle/logic/antt-project.json", "--logic-built", f"{kit}/logic_built", "--jobs", "1"]
