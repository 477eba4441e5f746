#!/usr/bin/env python3
"""docs/where_test.py: tries docs/where on `arrival`, the turn in which a drive's heads have come to a cylinder.

Its sessions below and what a turn more changes in them are worked out by hand from chapter 15 of the book: a seek is due 16 turns
and one for each cylinder after GO, a transfer's first sector 32 turns later. With all sessions of the project docs/where
found the same 32 as sessions/check did on a program whose `arrival` was a turn longer. Exit status 1: something else is listed.
"""
import os
import subprocess
import sys
import tempfile

HERE = os.path.dirname(os.path.realpath(__file__))
SESSIONS = """@ empty 0 00

= a seek over two cylinders is due in turn 18
> mount 0 empty rw; deposit 777412 100; deposit 777404 11; deposit 1000 777; set 7 1000; step 17
STOP turns 17 001000
> examine 777404
EXAM 777404 000210
> step 1
STOP turns 1 001000
> examine 777404
EXAM 777404 020210

= a read ends in turn 48
> mount 0 empty rw; deposit 777406 177777; deposit 777404 5; deposit 1000 777; set 7 1000; step 48
STOP turns 48 001000
> examine 777404
EXAM 777404 000204

= a WAIT idles when the seek is done
> mount 0 empty rw; deposit 777412 100; deposit 777404 11; deposit 1000 1; set 7 1000; continue 100
STOP idle 18 001002

= a seek that nobody waits for
> mount 0 empty rw; deposit 777404 11; examine 777404
EXAM 777404 000210

= a drive without a pack
> deposit 777404 11; examine 777402
EXAM 777402 000200
"""
WANTED = [
    "crates/p11_rk11/specs/Starts.antt:",
    ": after_begin",
    ": Mounted::arrival",
    "turn + 16 + u64::from(",
    "model/pdp11/disk.py:",
    ": Worked: heads at cylinder 0, RKDA at cylinder 2",
    "with 17 for 16 at model/pdp11/disk.py:",
    "sessions that answer something else: 3",
    ": a seek over two cylinders is due in turn 18: > examine 777404: EXAM 777404 020210 (now EXAM 777404 000210)",
    ": a read ends in turn 48: > examine 777404: EXAM 777404 000204 (now EXAM 777404 000004)",
    ": a WAIT idles when the seek is done: > continue 100: STOP idle 18 001002 (now STOP idle 19 001002)",
    ": 000111 (IDE, seek, GO) at 777404.",
]


# names, and for each what is listed besides: by titles, with what stands below
OTHERS = {
    "set_codes_for": {"contracts that name it, or the nearest definitions above it": ": Hardware::modify_operands",
                      "functions of its name": ": Hardware::set_codes_for"},
    "DriveBusy": {"declaration": ": DriveBusy = 7,", "definitions that name it": ": outcome", "the code": "src/disk.rt:",
                  "the model": "panel.py:", "sessions": "sessions/drives.txt:", "mutation tests": "busy-before-empty.edit:"},
    "turn_of": {"the model: 1": ": def turn(self):"},
}


def where(*words):
    return subprocess.run([os.path.join(HERE, "where"), *words], capture_output=True, text=True)


def lacking_of(name, sessions):
    """What isn't listed of a name in the part that a title begins."""
    parts = where(name, "--sessions", sessions).stdout.split("\n\n")
    for title, wanted in OTHERS[name].items():
        if not any(part.strip().startswith(title) and wanted in part for part in parts):
            yield f"of {name} it doesn't list, below '{title}': {wanted}"


def main():
    with tempfile.NamedTemporaryFile("w", suffix=".txt") as file:
        file.write(SESSIONS)
        file.flush()
        done = where("Starts.arrival", "--sessions", file.name)
        wrong = [fault for name in OTHERS for fault in lacking_of(name, file.name)]
    wrong += [f"it doesn't list: {line}" for line in WANTED if line not in done.stdout]
    wrong += [f"its exit status is {done.returncode}"] if done.returncode else []
    refused = where("seek")
    wrong += ["a name that is none isn't refused, with those that are like it"] if refused.returncode != 1 or "seek_turn" not in refused.stderr else []
    for line in wrong:
        print(f"docs/where_test.py: {line}")
    print(f"docs/where_test.py: {len(WANTED)} places of a turn more for a seek, {len(OTHERS)} other names, {len(wrong)} faults")
    return 1 if wrong else 0


if __name__ == "__main__":
    sys.exit(main())
