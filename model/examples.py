"""examples.py [COMMAND ..]: runs the script of each folder of examples/ through a program, and compares what it prints, its
status and the files that it leaves with what the folder says.

COMMAND is the program without its arguments, with full paths; the model if none is given. Exit status 1: something differs.
"""
import os
import sys
import tempfile
import subprocess

from make_file import bytes_of

HERE = os.path.dirname(os.path.abspath(__file__))
EXAMPLES = os.path.join(HERE, "examples")


def settings_of(folder):
    path = os.path.join(folder, "settings")
    if not os.path.exists(path):
        return {}
    with open(path) as file:
        return dict(line.rstrip("\n").split(" ", 1) for line in file)


def hex_files(folder, kind):
    path = os.path.join(folder, kind)
    for name in sorted(os.listdir(path)) if os.path.isdir(path) else ():
        with open(os.path.join(path, name)) as file:
            yield name.removesuffix(".hex"), bytes_of(file.read())


def read(*parts):
    with open(os.path.join(*parts), "rb") as file:
        return file.read()


def run(command, folder, extra, settings):
    """The texts of what differs in one run."""
    with tempfile.TemporaryDirectory() as work:
        for name, contents in hex_files(folder, "files"):
            with open(os.path.join(work, name), "wb") as file:
                file.write(contents)
        script = os.path.join(folder, "script")
        done = subprocess.run([*command, *extra, script], cwd=work, capture_output=True)
        wrong = []
        expected = read(folder, "expect")
        if done.stdout != expected:
            for number, (got, want) in enumerate(zip(done.stdout.split(b"\n") + [b""] * 99,
                                                     expected.split(b"\n")), 1):
                if got != want:
                    wrong.append(f"line {number}: {got!r}, expected {want!r}")
                    break
            else:
                wrong.append("more output than expected")
        if done.returncode != int(settings.get("status", 0)):
            wrong.append(f"status {done.returncode}: {done.stderr!r}")
        if "stderr" in settings and done.stderr.decode() != settings["stderr"] + "\n":
            wrong.append(f"standard error {done.stderr!r}")
        for name, contents in hex_files(folder, "after"):
            path = os.path.join(work, name)
            if not os.path.exists(path) or read(path) != contents:
                wrong.append(f"file {name} differs")
        return wrong


def main(words):
    command = words or [sys.executable, os.path.join(HERE, "p11.py")]
    runs = failures = 0
    for name in sorted(os.listdir(EXAMPLES)):
        folder = os.path.join(EXAMPLES, name)
        if not os.path.isdir(folder):
            continue
        settings = settings_of(folder)
        common = settings.get("arguments", "").split()
        if "memory" in settings:
            common += ["--memory", settings["memory"]]
        counts = settings["lines"].split() if "lines" in settings else [None]
        for count in counts:
            extra = common + (["--lines", count] if count else [])
            wrong = run(command, folder, extra, settings)
            runs += 1
            if wrong:
                failures += 1
                print(f"{name} {' '.join(extra)}: {'; '.join(wrong)}")
    print(f"{runs} runs, {failures} failures")
    return 1 if failures else 0


if __name__ == "__main__":
    sys.exit(main(sys.argv[1:]))
