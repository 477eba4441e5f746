#!/usr/bin/env python3
"""docs/contracts_test.py [SEED]: contracts weakened, by hand and at random, each of which docs/contracts.py has to name.

In a copy of what that script reads each text of a list is replaced by a weaker one, one at a time. Then fifty lines are dropped that
were chosen at random: clauses of public functions, lines of ghost members, lines of definitions. All may be proved just as well,
and callers may have no need of what is lost, so nothing but the list says it. SEED, a number, chooses the same fifty again. Exit
status 1: a weaker text isn't named, or isn't there.
"""
import collections
import glob
import os
import random
import re
import shutil
import subprocess
import sys
import tempfile

TOP = os.path.dirname(os.path.dirname(os.path.realpath(__file__)))
READ = [
    "README.md", "docs/PROVED.md", "docs/OPERATOR.md", "docs/contracts", "docs/contracts.py", "docs/claims.py", "docs/definitions.py",
    "tools/functions.py", "tools/dist/certificate",
]
DROPS = 50

# What is lost, the file in crates/, its text and the weaker one, and what has to be said.
WEAKENED = [
    (
        "a step of the console may do anything",
        "p11_console/src/console.rt",
        "-> Want\n        ensures { Steps turns self.old result self.new }\n    {",
        "-> Want\n    {",
        "contract changed: Console::step (p11_console)",
    ),
    (
        "a file may get its name with some of its bytes",
        "p11_files/src/filling.rt",
        "    ensures ok { OnOk result ((calls : List DiskCall) × Fills new.now path.now bytes.now calls\n"
        "        × (D.state disk.new ≡ with_calls calls (D.state disk.old))) }\n",
        "",
        "contract changed: fill (p11_files)",
    ),
    (
        "a machine may stay when it is dropped",
        "p11_c/src/lib.rt",
        "p11_drop(alloc: Global, handle: &mut Handle)\n    ensures { handle.new.slot.held ≡ None }\n",
        "p11_drop(alloc: Global, handle: &mut Handle)\n",
        "contract changed: p11_drop (p11_c)",
    ),
    (
        "a key may do anything to the line",
        "p11_line_editor/src/editor.rt",
        "-> Outcome\n        ensures { pressed key history.now self.old ≡ (self.new, result) }\n    {\n        if self.is_searching",
        "-> Outcome\n    {\n        if self.is_searching",
        "contract changed: Editor::press (p11_line_editor)",
    ),
    (
        "preparing a turn may lose what is prepared on other drives",
        "p11_unibus/src/acts.rt",
        "        ensures others { disks.KeepsPrepared (disk_view self.old.visible self.old.prepared)\n"
        "            (disk_view self.new.visible self.new.prepared) }\n"
        "        ensures written { self.new.written ≡ self.old.written }\n    {\n        if self.rests_but_clock",
        "        ensures written { self.new.written ≡ self.old.written }\n    {\n        if self.rests_but_clock",
        "contract changed: Unibus::prepare (p11_unibus)",
    ),
    (
        "a store may refuse a file that it has",
        "p11_store/specs/Store.antt",
        "FailsToFetch s name Refused s' = Has s.files name None × (s' ≡ asked name true (refused s))",
        "FailsToFetch s name Refused s' = (s' ≡ asked name true (refused s))",
        "contract changed: Store.FailsToFetch (p11_store)",
    ),
    (
        "want of memory may be told at any offset of a tape",
        "p11_tape/src/tape.rt",
        "        (e.at ≡ 0) × (meaning : Meaning)",
        "        (meaning : Meaning)",
        "contract changed: read_tape (p11_tape)",
    ),
    (
        "asking how many keys wait may change the machine",
        "p11_c/src/lib.rt",
        "(status ≡ Status.Done) × (kept' ≡ kept)\n        × (keys.new ≡ (machine_devices_of kept.machine).keys)",
        "(status ≡ Status.Done)\n        × (keys.new ≡ (machine_devices_of kept.machine).keys)",
        "contract changed: p11_keys_waiting (p11_c)",
    ),
    (
        "any command may be refused for want of memory",
        "p11_panel/specs/Commands.antt",
        "    ⊎ (IsTrue (takes_memory command s) × IsRefused NoMemory s answer s')",
        "    ⊎ (IsRefused NoMemory s answer s')",
        "contract changed: Commands.CommandStep (p11_panel)",
    ),
    (
        "the record that a console keeps isn't seen",
        "p11_console/src/console.rt",
        "      journal = c.journal;\n",
        "      journal = [];\n",
        "contract changed: ConsoleModel::view (p11_console)",
    ),
    (
        "what a pack has prepared isn't seen",
        "p11_rk11/src/mounted.rt",
        "cylinder = m.cylinder; seek = m.seek };\n      prepared = m.drive.prepared;\n",
        "cylinder = m.cylinder; seek = m.seek };\n      prepared = [];\n",
        "contract changed: MountedModel::view (p11_rk11)",
    ),
    (
        "p11 may do anything where a read fails",
        "p11_run/src/playing.rt",
        "    ensures reading { IsErrOf result (Cause.Session SessionFault.Reading)\n"
        "        → PlaysToFault Global (R.state script.old) (R.state script.new)\n"
        "        (with_store panel.old (S.state store.old)) (W.state output.old)\n"
        "        (with_store panel.new (S.state store.new)) (W.state output.new) }\n",
        "",
        "contract changed: play_script (p11_run)",
    ),
    (
        "p11 may end well before its script does",
        "p11_run/specs/Sessions.antt",
        "    × Reads r r' read n (ended ∷ []) × (n ≤ 999999) × IsAtEnd r'.left\n    × ScriptDone",
        "    × ScriptDone",
        "contract changed: Sessions.PlaysAll (p11_run)",
    ),
    (
        "help may be written in part",
        "p11_run/specs/Endings.antt",
        "    ((status ≡ 0) × Writes output output' (string_bytes text) [] × (errors' ≡ errors))",
        "    ((status ≡ 0) × (errors' ≡ errors))",
        "contract changed: Endings.EndsBy (p11_run)",
    ),
    (
        "a terminal may be given anything",
        "p11_shown/src/outlet.rt",
        "        ensures err { OnErr result (AppendsFront (W.contents self.old.writer) (W.contents self.new.writer)\n"
        "            (let_through self.old.is_raw self.old.screen bytes.now)) }\n",
        "",
        "contract changed: Outlet::write (p11_shown)",
    ),
    (
        "why a file can't be read may be anything",
        "p11_files/src/file_fault.rt",
        "-> FileFault\n    ensures { result ≡ fault_by (error_kind error.now) (raw_os_error error.now) }\n",
        "-> FileFault\n",
        "contract changed: fault_of (p11_files)",
    ),
    (
        "a save that is refused may be answered as one that went well",
        "p11_files/src/file_store.rt",
        "        ensures err { IfErr result (λ error. (error ≡ StoreError.Refused)\n",
        "        ensures err { IfErr result (λ error. (error ≡ error)\n",
        "contract changed: FileStore::replace (p11_files)",
    ),
    (
        "a key that comes to a console may be any number",
        "p11_records/specs/Dialogue.antt",
        "  Keys : List ℕ → Event A\n",
        "  Keys : List ℤ → Event A\n",
        "contract changed: Dialogue.Event (p11_records)",
    ),
]


def copy_into(place):
    for path in READ:
        os.makedirs(os.path.dirname(os.path.join(place, path)), exist_ok=True)
        shutil.copy(os.path.join(TOP, path), os.path.join(place, path))
    shutil.copytree(os.path.join(TOP, "crates"), os.path.join(place, "crates"), ignore=shutil.ignore_patterns("out", "proofs"))


def read(path):
    with open(path, encoding="utf-8") as file:
        return file.read()


def write(path, text):
    with open(path, "w", encoding="utf-8") as file:
        file.write(text)


def said_in(place):
    """What docs/contracts.py says in a copy."""
    ran = subprocess.run([os.path.join(place, "docs", "contracts.py")], stdout=subprocess.PIPE, text=True)
    return ran.stdout.split("\n") if ran.returncode == 1 else []


def said_of(place, path, old, new):
    """What docs/contracts.py says with one text replaced, and None if the text isn't there once."""
    before = read(path)
    if before.count(old) != 1:
        return None
    write(path, before.replace(old, new))
    said = said_in(place)
    write(path, before)
    return said


def clauses(text):
    """The clauses of a source's public functions: where each begins and ends, and its function's name."""
    for found in re.finditer(r"^ +ensures\b.*(?:\n(?! +(?:ensures|requires)\b| *\{).*[^;\n])*$", text, re.M):
        heads = list(re.finditer(r"^ *(pub(?:\(\w+\))? )?(?:const |unsafe |extern \"C\" )*fn (\w+)", text[: found.start()], re.M))
        if heads and heads[-1][1] == "pub ":
            yield found.start(), found.end(), heads[-1][2]


def members(text):
    """The lines of a source's views that have several: where each begins and ends, and the view's name."""
    for view in re.finditer(r"^    ghost (view) = \{ λ \w+\. record \{\n(.*?)^    \} \};", text, re.M | re.S):
        for line in re.finditer(r"^ +\w+ = .*;\n", view[2], re.M):
            yield view.start(2) + line.start(), view.start(2) + line.end(), "view"


def rows(text, module):
    """The lines below the first of a module's public definitions: where each begins and ends, and the definition's name."""
    for found in re.finditer(r"^(?:abbrev|unfoldable) pub ([\w']+) :.*\n((?:.+\n)+)", text, re.M):
        for line in list(re.finditer(r"^[^\s-].*=.*\n", found[2], re.M))[1:]:
            yield found.start(2) + line.start(), found.start(2) + line.end(), f"{module}.{found[1]}"


def drops(place):
    """What may be dropped of each file, by the crate and the name that then has to be told."""
    listed = {tuple(line.split()[:2]) for line in read(os.path.join(place, "docs", "contracts")).splitlines()}
    known = listed | {(crate, name.split("::")[-1]) for crate, name in listed}
    found = collections.defaultdict(list)
    for path in sorted(glob.glob(os.path.join(place, "crates", "*", "s*", "**", "*.*"), recursive=True)):
        crate, _, *inner = os.path.relpath(path, os.path.join(place, "crates")).split(os.sep)
        module, text = os.path.splitext(".".join(inner))[0], read(path)
        for begin, end, name in [*clauses(text), *members(text)] if path.endswith(".rt") else rows(text, module):
            if (crate, name) in known:
                found[path, crate, name].append((begin, end))
    return found


def unnamed_drops(place, chance):
    """Drops lines that were chosen at random, each of another name; those that aren't told."""
    found = drops(place)
    chosen = chance.sample(sorted(found), DROPS)
    for path in sorted({path for path, _, _ in chosen}):
        places = [chance.choice(found[key]) for key in chosen if key[0] == path]
        text = read(path)
        for begin, end in sorted(places, reverse=True):
            text = text[:begin] + text[end:]
        write(path, text)
    said = said_in(place)
    for path, crate, name in chosen:
        if not any(re.search(rf"[ :]{re.escape(name)} \({crate}\)$", line) for line in said):
            yield f"a line of {name} in {os.path.relpath(path, place)}"


def main():
    failed, seed = 0, int(sys.argv[1]) if sys.argv[1:] else random.randrange(1000000)
    with tempfile.TemporaryDirectory(prefix="p11-contracts-") as place:
        copy_into(place)
        for what, file, old, new, wanted in WEAKENED:
            said = said_of(place, os.path.join(place, "crates", file), old, new)
            if said is None or wanted not in said:
                why = "its text isn't there" if said is None else f"`{wanted}` isn't said"
                print(f"docs/contracts_test.py: {what}: {why}")
                failed += 1
        for what in unnamed_drops(place, random.Random(seed)):
            print(f"docs/contracts_test.py: {what} may be dropped unseen (seed {seed})")
            failed += 1
    print(f"{len(WEAKENED) + DROPS - failed} weakened contracts named, {failed} not; seed {seed}")
    return 1 if failed else 0


if __name__ == "__main__":
    sys.exit(main())
