"""A dialogue with each program of examples/evening.pack but its BASIC: play(machine) for tests/evening and soak.

A machine has type(text) and answer(until), as those of soak/forth_machines.py; it has just booted the pack. Each program
is started from the menu, and left to the menu again.
"""

MENU = "\n> "
# the program, its prompt, lines and words of their answers, and the keys that lead back to the menu
DIALOGUES = [
    ("LISP", "> ", [
        ("(define (fact n) (if (< n 2) 1 (* n (fact (- n 1)))))", "fact"),
        ("(map fact '(1 5 10))", "(1 120 3628800)"),
        ("(fact 'x)", "? x isn't a number\r\n  in (< n 2)"),
        ('(save "mine")', '"mine"'),
        ("(define fact nil)", "fact"),
        ('(load "mine")', "loaded"),
        ("(fact 6)", "720")], "(bye)\r"),
    ("FORTH", " ok\r\n", [
        (": SQUARE DUP * ; 12 SQUARE .", "144  ok"),
        ("0 60 BLOCK C! UPDATE FLUSH", " ok"),
        ("TUTORIAL", "Block 10")], "BYE\r"),
    ("LONGPOUND", "\n? ", [
        ("look", "The canal basin of Lower Ketting."),
        ("board the barge. down. open drawer", "In it lies a waybill."),
        ("take all. inventory", "You carry a letter, a waybill."),
        ("up. out. west. give waybill to the clerk", "hands you the windlass"),
        ("score", "You have 5 of 100 points"),
        ("xyzzy", 'The word "xyzzy" means nothing here.')], "quit\ry\r"),
    ("TILES", "game.", [(" ", "W A S D, Q: ")], "q "),
    ("HAMMURABI", "game.", [(" ", "The city has 100 people and 1000 acres.")], "\x03 "),
    ("MAZE", "today.", [("v", "\x1bY")], "q "),
    ("EXERCISER", "KEY? ", [("P", "RK11 READS OK\r\n\0\0\r\n\0\0KEY? ")], "."),
]


class Differs(Exception):
    """A program doesn't type what it has to."""


def told(machine, typed, prompt, words):
    machine.type(typed)
    found = machine.answer(prompt)
    if words not in found:
        raise Differs(f"{typed!r} has to type {words!r}, and typed {found!r}")


def play(machine):
    """Plays all dialogues; how many there are."""
    machine.answer(MENU)
    for name, prompt, lines, end in DIALOGUES:
        told(machine, name + "\r", prompt, prompt)
        for typed, words in lines:
            told(machine, typed + "\r" if len(typed) > 1 else typed, prompt if len(typed) > 1 else words, words.strip())
        told(machine, end, MENU, "evening")
    return len(DIALOGUES)
