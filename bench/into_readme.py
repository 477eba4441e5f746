"""The tables of scripts and transfers in bench/README.md, into which the scripts of this folder put numbers."""
import re
from pathlib import Path

README = Path(__file__).resolve().parent / "README.md"
HEAD = re.compile(r"^\| (?:Script|Transfer) \|.*\|$", re.M)
ROW = re.compile(r"^\| `([\w-]+)` \|.*\|$", re.M)
# Which processor the times of a column are of, and of which day.
TIMES = re.compile(r"^- (?P<column>[A-Z]): (?P<processor>.*), (?P<day>\S+)$", re.M)


def cells(row):
    return row.strip("|").split("|")


def column_of(text, title):
    """Where a table has a column: its place in the rows of that table."""
    heads = [[cell.strip() for cell in cells(head)] for head in HEAD.findall(text)]
    return next(head.index(title) for head in heads if title in head)


def numbers(title, names):
    """What a table has in a column, by the names of its rows."""
    text = README.read_text(encoding="utf-8")
    at = column_of(text, title)
    return {row[1]: cells(row[0])[at].strip() for row in ROW.finditer(text) if row[1] in names}


def put(title, new):
    """Puts numbers into a column, each into the row of its name."""
    text = README.read_text(encoding="utf-8")
    at = column_of(text, title)

    def renewed(row):
        if row[1] not in new:
            return row[0]
        parts = cells(row[0])
        parts[at] = f" {new[row[1]]} "
        return f"|{'|'.join(parts)}|"

    README.write_text(ROW.sub(renewed, text), encoding="utf-8")


def with_column(text, column):
    """The text with one more column in the table of scripts."""
    table = re.search(r"^\| Script \|.*(?:\n\|.*)*", text, re.M)[0]
    head, rule, *rows = table.split("\n")
    wider = [f"{head} {column} |", f"{rule}---|", *(f"{row} |" for row in rows)]
    return text.replace(table, "\n".join(wider))


def put_times(new, processor, day):
    """Puts times into the column of a processor, which is made if there is none, and the day on which they were taken."""
    text = README.read_text(encoding="utf-8")
    lines = list(TIMES.finditer(text))
    mine = next((it for it in lines if it["processor"] == processor), None)
    column = mine["column"] if mine else chr(ord(lines[-1]["column"]) + 1)
    said = f"- {column}: {processor}, {day}"
    if mine:
        text = text.replace(mine[0], said)
    else:
        text = with_column(text.replace(lines[-1][0], f"{lines[-1][0]}\n{said}"), column)
    README.write_text(text, encoding="utf-8")
    put(column, new)
