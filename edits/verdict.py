"""What the prover says of an edit: refused, bad or not refused, with what shows it.

An edit is refused if the prover ran to its end, the function that the edit names was looked at, and a goal of it isn't proved, or
of the caller that the edit names. All else that isn't proved shows nothing of a contract: a text that doesn't parse or type, a
name that a proof file looks for in vain, a refusal elsewhere, a limit of the prover.

A function is judged by its check (judge), with all that it calls. Sooner told is which goals the prover's own search leaves open: it
starts a proof file for them. One that the function's own file has no answer for isn't proved (judge_start). Neither way shows that
such a goal is false: where an edit gives a function with answers another goal, it may only want an answer.
"""
import os
import re

REFUSED, BAD, NOT_REFUSED = "refused", "bad", "not refused"
FUNCTION = re.compile(r"^fn (\S+): (proved|not proved|no proof|could not tell)", re.M)
TOLD = re.compile(r"^(?:note: )?(?:\./)?(?P<file>(?:src|specs|proofs)/[^:\s]+):(?P<line>\d+):\d+: (?P<says>.*)$", re.M)
OPEN = re.compile(r"not proved|error")
NAMES_ALONE = re.compile(r"has no field|is not in scope|has no `|was not admitted")
ENDED = re.compile(r"^only=\d+ proved=\d+$", re.M)
STARTED = re.compile(r"^started=\d+$", re.M)
WROTE = re.compile(r"^wrote \./(proofs/(\S+)/(?:Answers|Invariants|Proof)\.antt)$", re.M)
NEEDS_NONE = re.compile(r"^note: `(\S+)` needs no (?:other )?file: nothing is left to choose or to answer$", re.M)
HOLE = re.compile(r"^-- (\S+):\d+\n(?:(?!-- ).*\n)*?(\S+)(?: \w+)* = \?$", re.M)
ANSWER = re.compile(r"^pub (\S+) :", re.M)


def named(functions, name):
    """The one function that was checked whose path ends with this name, or None."""
    found = [it for it in functions if it == name or it.endswith("::" + name)]
    return found[0] if len(found) == 1 else None


def is_of(told, path, file, lines):
    """Whether a line is of the function with this path: of its text, these lines of this file, or of its own proof files."""
    own_proofs = "proofs/" + "/".join(path.split("::")[1:]) + "/"
    return told["file"].startswith(own_proofs) or told["file"] == file and lines[0] <= int(told["line"]) <= lines[1]


def first_error(text):
    lines = [line for line in text.split("\n") if line.strip()]
    return next((line for line in lines if "error" in line), lines[-1] if lines else "it said nothing")


def written(text, crate):
    """The proof files that the prover has written, by function."""
    found = {}
    for file, place in WROTE.findall(text):
        found.setdefault("::".join([crate, *place.split("/")]), []).append(file)
    return found


def judge_start(edit, text, folder, answers):
    """The verdict on an edit by what the prover left open of its function, in the proof file that it started in the crate's folder;
    None where the function has to be checked: all that is open has an answer in the function's own file, of which `answers` has the
    text by its path, or the prover started no such file."""
    if not STARTED.search(text):
        return None
    files, proved = written(text, edit.crate), NEEDS_NONE.findall(text)
    if path := named(proved, edit.judged()):
        return NOT_REFUSED, f"{path} is still proved"
    mine = files.get(named(files, edit.judged()), [])
    if [os.path.basename(it) for it in mine] != ["Answers.antt"]:
        return None
    with open(os.path.join(folder, mine[0]), encoding="utf-8") as file:
        holes = HOLE.findall(file.read())
    answered = ANSWER.findall(answers.get(mine[0], ""))
    return next(((REFUSED, f"{place}: it is not proved: `{goal}`") for place, goal in holes if goal not in answered), None)


def judge(edit, text, file, lines):
    """The verdict on an edit, and why, by what its check said. The function that has to be refused stands in these lines of
    this file, after the change."""
    if not ENDED.search(text):
        return BAD, f"the prover wasn't reached: {first_error(text)}"
    functions = dict(FUNCTION.findall(text))
    for name in edit.names():
        if not named(functions, name):
            return BAD, f"no function {name} was checked, but {', '.join(sorted(functions)) or 'none'}"
    path = named(functions, edit.judged())
    if functions[path] == "proved":
        return NOT_REFUSED, f"{path} is still proved"
    told = [it for it in TOLD.finditer(text) if is_of(it, path, file, lines) and OPEN.search(it["says"])]
    goals = [it for it in told if it["file"].startswith("src/") or not NAMES_ALONE.search(it["says"])]
    if functions[path] == "could not tell":
        return BAD, f"the prover gave no verdict on {path}"
    if goals:
        return REFUSED, f"{goals[0]['file']}:{goals[0]['line']}: {goals[0]['says']}"
    if told:
        return BAD, f"only a name in a proof file is gone: {told[0]['file']}:{told[0]['line']}: {told[0]['says']}"
    return BAD, f"{path} isn't proved, but no goal of it is told: {first_error(text)}"
