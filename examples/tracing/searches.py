"""Which turn it was: when a word changed last, when it got a value first, when PC was first at an address.

Each turn is looked at, so that the answers are exact."""
from .replay import Cursor, question_of

# how many turns are looked at in the last stretch of a run; each stretch before it has twice as many
STRETCH = 20000


def program_counter(answer):
    return int(answer[1].split()[4], 8)


def looks(script, low, high, question):
    """The answer to a question before each of the turns from LOW to HIGH, behind the script's lines there, with the turn."""
    cursor = Cursor(script, low)
    try:
        while True:
            if cursor.turn < script.total:
                cursor.arrive()
            yield cursor.turn, cursor.console.ask(question)
            for answer in cursor.watched(min(cursor.left, high - cursor.turn), question):
                if cursor.left or cursor.turn == script.total:
                    yield cursor.turn, answer
            if cursor.turn == high and (cursor.left or high == script.total):
                return
    finally:
        cursor.close()


def stretches(low, high):
    """The turns from LOW to HIGH in parts, the last one first."""
    size = STRETCH
    while low < high:
        begin = max(low, high - size)
        yield begin, high
        high, size = begin, 2 * size


def last_change(script, question, high, low=0, read=lambda answer: answer):
    """The last turn from LOW to HIGH over which what READ takes of a question's answer changed, counted from 0, or None."""
    for begin, end in stretches(low, high):
        found, before = None, None
        for turn, answer in looks(script, begin, end, question):
            value = read(answer)
            if before is not None and value != before:
                found = turn - 1
            before = value
        if found is not None:
            return found
    return None


def changed_last(script, address, high, low=0):
    """The last turn from LOW to HIGH that changed the word at a bus address, counted from 0, or None."""
    question, read = question_of(address)
    return last_change(script, question, high, low, read)


def has_word(script, address):
    """Whether something answers at a bus address."""
    cursor = Cursor(script)
    found = cursor.word(address) is not None
    cursor.close()
    return found


def line_that_changed(script, turn, address):
    """The script's line behind a turn that changed the word at a bus address, as its number and text; None: the turn did."""
    cursor = Cursor(script, turn)
    cursor.arrive()
    before = cursor.word(address)
    cursor.advance()
    found = None
    if cursor.word(address) == before:
        found = next((line for line in cursor.lines_done() if cursor.word(address) != before), None)
    cursor.close()
    return found


def first_with(script, question, read, wanted):
    """The turn before which what READ takes of a question's answer was a value first, or None."""
    return next((turn for turn, answer in looks(script, 0, script.total, question) if read(answer) == wanted), None)


def had_first(script, address, value):
    """The turn before which the word at a bus address was a value first, or None."""
    return first_with(script, *question_of(address), value)


def was_at_first(script, address):
    """The turn before which PC was an address first, or None."""
    return first_with(script, "regs", program_counter, address)
