"""The table of sizes and times in examples/evening/README.md: table(program) gives its lines for tests/evening, and
`python3 tests/evening_table.py PROGRAM` prints them.

Sizes are those of the catalogue; turns are counted from the last key to the wait for the next one, what is typed with them,
and are the same on each computer and day.
"""
import os
import sys

sys.dont_write_bytecode = True
TOP = os.path.join(os.path.dirname(os.path.abspath(__file__)), "..")
sys.path.insert(0, os.path.join(TOP, "soak"))
import forth_machines as machines  # noqa: E402 (no compiled files are left beside the script)
from evening_pack import files_of  # noqa: E402

PACK = "examples/evening.pack"
MENU = "\n> "
# about what an 11/40 makes in a second
PACE = 400_000
# a program, what is typed before, what is typed and measured, and what the table says of that
TASKS = [
    ("BASIC", "", "FOR I=1 TO 10000:NEXT I\r", "10,000 turns of `FOR` and `NEXT`"),
    ("LISP", '(load "QUEENS.LSP")\r', "(queens 6)\r", "`(queens 6)`"),
    ("FORTH", "SIEVE\r", "8192 HOW-MANY\r", "`SIEVE 8192 HOW-MANY`"),
    ("LONGPOUND", "", "look\r", "`look`"),
    ("TILES", " ", "a", "a move"),
    ("HAMMURABI", " ", "0\r0\r2000\r1000\r", "a year"),
    ("MAZE", "", "v", "a maze is cut and drawn")]


def turns_of(machine, typed):
    """How many turns the machine makes from these keys to the wait for the next one."""
    machine.turns = 0
    machine.type(typed)
    machine.answer()
    return machine.turns


def table(program):
    with open(PACK, "rb") as file:
        files = files_of(file.read())
    lines = ["| Program | Bytes on the pack | Turns to its first question | Turns for | |", "|---|---|---|---|---|"]
    for name, before, typed, what in TASKS:
        machine = machines.P11(program, PACK)
        machine.answer(MENU)
        begun = turns_of(machine, name + "\r")
        if before:
            turns_of(machine, before)
        taken = turns_of(machine, typed)
        machine.end()
        lines.append(f"| {name} | {len(files[name][1]):,} | {begun:,} | {what} | {taken:,}, {taken / PACE:.2f} s |")
    return lines


if __name__ == "__main__":
    os.chdir(TOP)
    print("\n".join(table(os.path.abspath(sys.argv[1]))))
