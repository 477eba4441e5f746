"""The book's index: the handbook's words, of docs/book_terms.txt and of the terms in bold, and the names in definitions. A module
for docs/book; it isn't run by itself."""
import collections
import html
import os
import re

from book_pages import DOCS, HEADING, slug

TERMS = os.path.join(DOCS, "book_terms.txt")


def terms(book):
    """Each word of docs/book_terms.txt: the word, and for each place of it the anchor and its page, or None if it isn't there."""
    pages = {page.number: page for page in book.pages if page.number}
    with open(TERMS, encoding="utf-8") as file:
        lines = [line.rstrip("\n") for line in file if not line.startswith("#")]
    for line in lines:
        word, _, places = line.partition(" = ")
        yield word, [place(pages, text) for text in places.split("; ")]


def place(pages, text):
    """The anchor of a place, `CHAPTER` or `CHAPTER TITLE`, and its page."""
    number, _, title = text.partition(" ")
    page = pages.get(int(number)) if number.isdigit() else None
    if page is None or title and title not in [heading for _, heading in HEADING.findall(page.text)]:
        return None, text
    return (f"{page.place}-{slug(title)}" if title else page.place), page


def faults(book):
    """What is wrong with the words: a place that isn't there, a word without one, or twice."""
    words = list(terms(book))
    for word, places in words:
        for anchor, where in places:
            if anchor is None:
                yield f"docs/book_terms.txt: {word} is in no section {where!r}"
    for word in sorted({word for word, _ in words if [other for other, _ in words].count(word) > 1}):
        yield f"docs/book_terms.txt: {word} is there twice"


def by_letter(entries, link, prefix):
    """Entries, (sorted by, shown, places), by their first letters, with links to the letters."""
    letters = collections.defaultdict(list)
    for name, shown, places in sorted(entries, key=lambda entry: (entry[0].lower(), entry[0])):
        first = name[0].upper() if name[0].isalpha() else "&amp;"
        links = ", ".join(link(anchor, f"{page.number or page.title}") for anchor, page in places)
        letters[first].append(f"<li>{shown} {links}</li>")
    heads = " ".join(link(f"{prefix}-{letter[0]}", letter) for letter in sorted(letters))
    return f"<p>{heads}</p>" + "".join(f'<h3 id="{prefix}-{letter[0]}">{letter}</h3><ul class="index">{"".join(lines)}</ul>'
                                       for letter, lines in sorted(letters.items()))


def made(book, names, link):
    """The index in HTML. `names` has for each name or term of the pages its places: anchor, how it is shown, page."""
    words = {word: [(anchor, page) for anchor, page in places if anchor] for word, places in terms(book)}
    code = {}
    for name, places in names.items():
        if places[0][1].startswith("<code>"):
            code[name] = (name, places[0][1], [(anchor, page) for anchor, _, page in places])
        elif name not in words:
            words[name] = [(anchor, page) for anchor, _, page in places]
    entries = [(word, re.sub(r"\*", "", html.escape(html.unescape(word))), places) for word, places in words.items()]
    return ('<h1 id="index">Index</h1><p>The number is that of the chapter; where it stands twice, it leads to two of its sections.</p>'
            '<h2 id="index-words">The handbook\'s words</h2>'
            + by_letter(entries, link, "index") + '<h2 id="index-names">Names in the definitions</h2>'
            + by_letter(code.values(), link, "index-name"))
