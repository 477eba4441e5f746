"""The scripts of the repository, by language: shell, Python, JavaScript. A script is told by its name's end, or by its first line."""
import os
import re
import shutil
import subprocess

TOP = os.path.dirname(os.path.dirname(os.path.abspath(__file__)))
FIRST_LINE = {b"sh": "shell", b"bash": "shell", b"python3": "Python"}
# folders of what is built
BUILT = {"out", "__pycache__", ".git"}
ENDS = {".sh": "shell", ".py": "Python", ".js": "JavaScript"}


def language_of(path):
    end = os.path.splitext(path)[1]
    if end in ENDS:
        return ENDS[end]
    with open(os.path.join(TOP, path), "rb") as file:
        told = re.match(rb"#!.*[/ ](sh|bash|python3)\b", file.readline(80))
    return FIRST_LINE[told[1]] if told else None


def files():
    """The files of the repository: those that git tracks, or all but what is built, in an unpacked archive."""
    if shutil.which("git") and os.path.exists(os.path.join(TOP, ".git")):
        listed = subprocess.run(["git", "ls-files", "-z"], cwd=TOP, check=True, capture_output=True, text=True)
        yield from (path for path in listed.stdout.split("\0") if os.path.isfile(os.path.join(TOP, path)))
        return
    for folder, folders, names in os.walk(TOP):
        folders[:] = [it for it in folders if it not in BUILT and os.path.join(folder, it) != os.path.join(TOP, "dist")]
        yield from (os.path.relpath(os.path.join(folder, name), TOP) for name in names)


def scripts():
    """Each script's path from the repository's top, with its language."""
    for path in files():
        language = language_of(path)
        if language:
            yield path, language
