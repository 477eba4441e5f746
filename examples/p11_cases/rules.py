"""Where the book has the rule of a case: the instruction's, and those that are this project's choice."""
import os
import re

from lockstep_rules import rule_of

from . import EXAMPLES
from .choices import RULES

PAGES = os.path.join(EXAMPLES, "..", "docs", "book.d")
FETCH = "11-turn: One instruction"
OWN = "[own]"


def place_of(word):
    """The page and the section with an instruction's rule."""
    page, section = rule_of(word)[1]
    return f"{os.path.basename(page).removesuffix('.md')}: {section}"


def sentence(rule):
    """A choice as the book says it, up to its sign; ValueError if the section has no such words."""
    page = os.path.join(PAGES, rule.page + ".md")
    if not os.path.exists(page):
        raise ValueError("the book (docs/book.d) isn't beside examples: cases are made in p11's sources")
    with open(page, encoding="utf-8") as file:
        sections = re.split(r"^#+ (.*)$", file.read(), flags=re.M)
    found = dict(zip(sections[1::2], sections[2::2]))
    text = " ".join(next((body for title, body in found.items() if title.endswith(rule.section)), "").split())
    at = text.find(rule.words)
    end = text.find(OWN, at)
    if at < 0 or end < 0:
        raise ValueError(f"docs/book.d/{rule.page}.md, {rule.section}: no {OWN} behind {rule.words!r}")
    return text[at:end + len(OWN)]


def told():
    """All choices, as the first line of a file of cases has them."""
    return {name: {"book": f"{rule.page}: {rule.section}" if rule.section else rule.page, "text": sentence(rule),
                   **({"fields": list(rule.fields)} if rule.fields else {})} for name, rule in RULES.items()}
