"""compare.py --first COMMAND --second COMMAND [--seeds FROM-TO] [--mode any|machine|text] [--jobs N]
              [--keep FOLDER] [--most FAILURES] [--timeout SECONDS] [--no-minimise]

Runs random cases of fuzz.py through two programs, each in a folder of its own, and compares standard
output, exit status and the files that are left. For each seed that differs it prints the first differing
line of output; it then makes the script shorter by dropping lines while the two programs still differ,
and prints what is left. A COMMAND is split at spaces, and names its files by full paths, since each case runs in a folder of its own; the options and the script's name follow it.
`--keep` stores the shortened cases in folders by seed.
`--case FOLDER` compares the case of one folder (as fuzz.py --out writes it) in place of seeds.
"""
import concurrent.futures
import hashlib
import os
import shlex
import subprocess
import sys
import tempfile
import time

import fuzz

MINIMISING_SECONDS = 90


class Outcome:
    def __init__(self, command, case, timeout):
        with tempfile.TemporaryDirectory(prefix="compare") as folder:
            fuzz.write_case(case, folder)
            try:
                done = subprocess.run([*command, *case.arguments, "script"], cwd=folder, timeout=timeout,
                                      stdin=subprocess.DEVNULL, capture_output=True)
                self.output, self.status, self.errors = done.stdout, done.returncode, done.stderr
            except subprocess.TimeoutExpired as late:
                self.output, self.status, self.errors = late.stdout or b"", "timeout", b""
            self.files = {}
            for name in sorted(os.listdir(os.fsencode(folder))):
                path = os.path.join(os.fsencode(folder), name)
                if os.path.isfile(path):
                    with open(path, "rb") as file:
                        self.files[name] = hashlib.sha256(file.read()).hexdigest()

    def same(self, other):
        return (self.output, self.status, self.files) == (other.output, other.status, other.files)


def outcomes(commands, case, timeout):
    return [Outcome(command, case, timeout) for command in commands]


def difference(first, second):
    """Text of the first difference of two outcomes."""
    left, right = first.output.split(b"\n"), second.output.split(b"\n")
    for number in range(max(len(left), len(right))):
        one = left[number] if number < len(left) else None
        two = right[number] if number < len(right) else None
        if one != two:
            before = b"\n".join(left[max(0, number - 3):number]).decode("latin-1")
            return f"output line {number + 1}, after\n{before}\n  first : {one}\n  second: {two}\n" + errors(first, second)
    if first.status != second.status:
        return f"status {first.status} and {second.status}\n" + errors(first, second)
    names = [name for name in {**first.files, **second.files} if first.files.get(name) != second.files.get(name)]
    return f"files {names}"


def errors(first, second):
    return "".join(f"  errors of {which}, status {one.status}: {one.errors[-400:].decode('latin-1')}\n"
                   for which, one in (("first", first), ("second", second)) if one.errors or one.status)


def differs(commands, case, timeout):
    first, second = outcomes(commands, case, timeout)
    return not first.same(second)


def minimise(commands, case, timeout, seconds):
    """A case with fewer lines that still differs."""
    end = time.monotonic() + seconds
    lines = case.script.split(b"\n")

    def with_lines(chosen):
        return case._replace(script=b"\n".join(chosen))

    size = max(1, len(lines) // 2)
    while True:
        at, dropped = len(lines) - size, False
        while at > -size and time.monotonic() < end:
            shorter = lines[:max(0, at)] + lines[max(0, at) + size:] if at >= 0 else lines[at + size:]
            if len(shorter) < len(lines) and differs(commands, with_lines(shorter), timeout):
                lines, dropped = shorter, True
            at -= size
        if time.monotonic() >= end or (size == 1 and not dropped):
            break
        size = max(1, size // 2)
    return with_lines(lines)


def shorter_deposits(commands, case, timeout, seconds):
    """Cuts words off the ends of `deposit` lines while the programs still differ."""
    end = time.monotonic() + seconds
    lines = case.script.split(b"\n")
    for at, line in enumerate(lines):
        words = line.split(b" ")
        while words[0] == b"deposit" and len(words) > 3 and time.monotonic() < end:
            shorter = lines[:at] + [b" ".join(words[:-1])] + lines[at + 1:]
            if not differs(commands, case._replace(script=b"\n".join(shorter)), timeout):
                break
            words, lines = words[:-1], shorter
    return case._replace(script=b"\n".join(lines))


def main(words):
    options = {"--seeds": "0-199", "--mode": "any", "--jobs": str(os.cpu_count()), "--most": "3",
               "--timeout": "60"}
    while words:
        name = words.pop(0)
        options[name] = "" if name == "--no-minimise" else words.pop(0)
    if "--first" not in options or "--second" not in options:
        raise SystemExit(__doc__)
    commands = [shlex.split(options["--first"]), shlex.split(options["--second"])]
    timeout = float(options["--timeout"])
    if "--case" in options:
        cases = {options["--case"]: read_case(options["--case"])}
    else:
        first, _, last = options["--seeds"].partition("-")
        cases = {seed: None for seed in range(int(first), int(last or first) + 1)}

    def run(key):
        case = cases[key] or fuzz.make_case(key, options["--mode"])
        return key, case, outcomes(commands, case, timeout)

    started, compared, failures = time.monotonic(), 0, []
    with concurrent.futures.ThreadPoolExecutor(int(options["--jobs"])) as pool:
        for key, case, (one, two) in pool.map(run, cases):
            compared += 1
            if one.same(two) and one.status != 0:
                print(f"seed {key}: both end with status {one.status}: {one.errors[-300:]}", flush=True)
            if not one.same(two):
                failures.append((key, case))
                print(f"seed {key} differs: {difference(one, two)}", flush=True)
    print(f"{compared} cases, {len(failures)} differ, {time.monotonic() - started:.0f} seconds", flush=True)
    for key, case in failures[:int(options["--most"])]:
        if "--no-minimise" not in options:
            case = minimise(commands, case, timeout, MINIMISING_SECONDS)
            case = shorter_deposits(commands, case, timeout, MINIMISING_SECONDS / 3)
        print(f"--- seed {key}, {' '.join(case.arguments)}, {len(case.script.splitlines())} lines")
        print(case.script.decode("latin-1"))
        print(difference(*outcomes(commands, case, timeout)), flush=True)
        if "--keep" in options:
            fuzz.write_case(case, os.path.join(options["--keep"], str(key).replace("/", "_")))
    return 1 if failures else 0


def read_case(folder):
    files = {}
    for name in os.listdir(folder):
        with open(os.path.join(folder, name), "rb") as file:
            files[name] = file.read()
    arguments = files.pop("arguments", b"").decode().split()
    script = files.pop("script")
    return fuzz.Case(arguments, files, script)


if __name__ == "__main__":
    sys.exit(main(sys.argv[1:]))
