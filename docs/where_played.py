"""What answers something else on a model with another number. A module for docs/where; run by itself with a copied model's
folder and a list of files it plays these, and prints a line for each that differs.

Played are sessions (sessions/*.txt, docs/book.d/worked.txt), the folders of model/examples, and scripts of examples/ with an `.out`
file beside them.
"""
import glob
import io
import os
import shutil
import subprocess
import sys
import tempfile

HERE = os.path.dirname(os.path.realpath(__file__))
WORKED = os.path.join(HERE, "book.d", "worked.txt")
PROCESSES = 4


class CannotPlay(Exception):
    """Why the changed model can't be played."""


def changed(top, place, old, new, folder):
    """Copies the model into a folder, with one number changed."""
    path, _, number = place.rpartition(":")
    shutil.copytree(os.path.join(top, "model"), os.path.join(folder, "model"))
    try:
        with open(os.path.join(folder, path), encoding="utf-8") as file:
            lines = file.readlines()
        line = lines[int(number) - 1]
    except (OSError, ValueError, IndexError):
        raise CannotPlay(f"there is no line {place}") from None
    if old not in line:
        raise CannotPlay(f"{place} hasn't {old}: {line.strip()}")
    lines[int(number) - 1] = line.replace(old, new, 1)
    with open(os.path.join(folder, path), "w", encoding="utf-8") as file:
        file.writelines(lines)


def differences(top, place, old, new, sessions):
    """What answers something else, by kind: pairs of a title and lines."""
    for path in (path for path in sessions or () if not os.path.isfile(path)):
        raise CannotPlay(f"there is no file {path}")
    texts = sessions or sorted(glob.glob(os.path.join(top, "sessions", "*.txt")), key=os.path.getsize)
    kinds = [("sessions that answer something else", texts)]
    if not sessions:
        kinds += [("worked examples of the book", [WORKED]),
                  ("the model's examples", sorted(glob.glob(os.path.join(top, "model", "examples", "*", "script")))),
                  ("scripts of examples", [out[:-4] + ".p11" for out in sorted(glob.glob(os.path.join(top, "examples", "*.out")))])]
    with tempfile.TemporaryDirectory() as folder:
        changed(top, place, old, new, folder)
        for title, paths in kinds:
            parts = [paths[first::PROCESSES] for first in range(PROCESSES)]
            running = [subprocess.Popen([sys.executable, __file__, folder, top, *part], stdout=subprocess.PIPE, text=True)
                       for part in parts if part]
            told = [line for one in running for line in one.communicate()[0].splitlines()]
            if any(one.returncode for one in running):
                raise CannotPlay(f"with {new} for {old} at {place} the model can't play these: {title}")
            yield title, sorted(told)


def play(script, kwords, files):
    """What the model answers, in a folder of its own with these files; its text, cut off where the model breaks."""
    from pdp11.panel import Panel
    from pdp11.session import FileStore, SessionFault, session
    with tempfile.TemporaryDirectory() as folder:
        os.chdir(folder)
        for name, data in files.items():
            os.makedirs(os.path.dirname(name) or ".", exist_ok=True)
            with open(name, "wb") as file:
                file.write(data)
        text = io.BytesIO()
        with tempfile.TemporaryFile() as file:
            file.write(script)
            file.seek(0)
            try:
                session(Panel(kwords), file.fileno(), text, FileStore())
            except SessionFault as fault:
                text.write(f"{fault}\n".encode())
        os.chdir("/")
    return text.getvalue().decode("ascii", "backslashreplace").splitlines()


def first_other(expected, answered):
    """The number, from 0, of the first line that differs; None if none does."""
    for at in range(max(len(expected), len(answered))):
        if expected[at:at + 1] != answered[at:at + 1]:
            return at
    return None


def shown(expected, answered, at):
    """The lines that differ, as docs/where reads them again (MOVED)."""
    was, now = ([*lines, "(no more lines)"][min(at, len(lines))] for lines in (expected, answered))
    return f"{was} (now {now})"


def of_sessions(path, name):
    from reading import sessions
    for one in sessions(path):
        asked, expected = map(list, zip(*((step.line, line) for step in one.steps for line in step.answer)))
        answered = play(one.script().encode(), one.kwords, one.files)
        at = first_other(expected, answered)
        if at is not None:
            yield f"{name}:{one.at}: {one.name}: > {asked[min(at, len(asked) - 1)]}: {shown(expected, answered, at)}"


def of_example(path, name):
    from examples import hex_files, read, settings_of
    folder = os.path.dirname(path)
    settings = settings_of(folder)
    kwords = int(settings.get("memory", 28))
    if "arguments" in settings or settings.get("status", "0") != "0":
        return
    wanted = read(folder, "expect").decode("ascii", "backslashreplace").splitlines()
    answered = play(read(path), kwords, dict(hex_files(folder, "files")))
    at = first_other(wanted, answered)
    if at is not None:
        yield f"{os.path.dirname(name)}: {shown(wanted, answered, at)}"


def of_script(path, name):
    folder = os.path.dirname(path)
    packs = {}
    for file in glob.glob(os.path.join(folder, "*.pack")) + glob.glob(os.path.join(folder, "*.tape")):
        with open(file, "rb") as data:
            packs[f"examples/{os.path.basename(file)}"] = data.read()
    with open(path, "rb") as file, open(path[:-4] + ".out", encoding="ascii") as out:
        wanted, answered = out.read().splitlines(), play(file.read(), 28, packs)
    at = first_other(wanted, answered)
    if at is not None:
        yield f"{name[:-4]}.out:{at + 1}: {shown(wanted, answered, at)}"


def main():
    folder, top, *paths = sys.argv[1:]
    sys.dont_write_bytecode = True
    sys.path[:0] = [os.path.join(folder, "model"), os.path.join(top, "sessions")]
    for path in map(os.path.abspath, paths):
        kind = of_script if path.endswith(".p11") else of_example if os.path.basename(path) == "script" else of_sessions
        for line in kind(path, os.path.relpath(path, top)):
            print(line)


if __name__ == "__main__":
    main()
