"""The rules of the book that are this project's choice: each sentence, list item or row of a table with the sign [own], by
its page and section. A module for docs/book; it isn't run by itself."""
import re

from book_pages import MARK

SIGN = "[own]"


def choices(book):
    """The page, the section and the text of each."""
    for page in book.pages:
        if not page.number:
            continue
        section = ""
        for paragraph in re.split(r"\n\n+|\n(?=[-|] |\d+\. )", MARK.sub("\n\n", page.text)):
            if paragraph.startswith("#"):
                section = paragraph.lstrip("# ").strip()
            for sentence in re.split(r"(?<=[.;:])\s+(?=[A-Z*`(])", " ".join(paragraph.split())):
                if SIGN in sentence:
                    yield page.file, section, sentence.lstrip("- ")


def printed(book):
    """One line a choice, and how many there are."""
    found = list(choices(book))
    lines = [f"{file}, {section}: {text}" for file, section, text in found]
    return "\n".join([*lines, f"docs/book: {len(found)} rules are this project's choice"])
