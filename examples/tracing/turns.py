"""The turns of a script, each as the model makes it between two states of p11."""
from .observed import Snapshot, Turn, turn_made
from .replay import Cursor


def turns_of(script, first, count):
    """The turns from FIRST on, counted from 0, at most COUNT."""
    found = []
    cursor = Cursor(script, first)
    for _ in range(min(count, script.total - first)):
        cursor.arrive()
        before = Snapshot(cursor.console)
        made = Turn(before)
        cursor.advance()
        found.append(turn_made(before, made, Snapshot(cursor.console)))
    devices = cursor.console.ask("device")
    cursor.close()
    return found, devices


def turn_at(script, turn):
    return turns_of(script, turn, 1)[0][0]
