"""What is wrong with the book: in its pages, in docs/BOOK.md and in docs/READING.md. Each fault is one line of text, and
says where it can what has to follow. A module for docs/book; it isn't run by itself."""
import difflib
import glob
import html.parser
import os
import re

import book_index
import book_numbers
from book_code import anchor
from book_pages import DOCS, MARK
from definitions import CRATES, NAME, Key, ghost_scope, without_comment

TOP = os.path.join(DOCS, "..")
IO_PAGE = 0o760000
# The page with the promises, each by the clause of a call.
THEOREM = os.path.join("book.d", "00-promises.md")


def faults(book):
    yield from book.faults
    yield from what_is_put_in(book)
    yield from kinds_of_files(book)
    yield from rules_before_definitions(book)
    yield from names_of_toolchain(book)
    yield from registers(book)
    yield from contents(book)
    yield from names_in_words(book)
    yield from quotations("READING.md")
    yield from quotations(THEOREM)
    yield from rests_on(book)
    yield from book_index.faults(book)
    yield from book_numbers.faults(book)


def read(*parts):
    with open(os.path.join(*parts), encoding="utf-8") as file:
        return file.read()


def name_of(key):
    return f"{key.crate}/specs/{key.module}.antt: {key.name}" if isinstance(key, Key) else " ".join(key)


def what_is_put_in(book):
    """Just what the headline reaches, each once."""
    shown = {key for key in book.shown if isinstance(key, Key) or key[0] == "type"}
    for key in sorted(book.reached - shown, key=name_of):
        yield f"not in the book: {name_of(key)}"
    for key in sorted(shown - book.reached, key=name_of):
        yield f"in the book, but the headline doesn't reach it: {name_of(key)}"
    for key, pages in book.shown.items():
        if len(pages) > 1:
            yield f"in the book more than once: {name_of(key)} ({', '.join(page.file for page in pages)})"


def kinds_of_files(book):
    """The folders Laws, Kept and Calls of specs/ have what the headline doesn't reach, and only they."""
    crates = {key.crate for key in book.reached if isinstance(key, Key)}
    for key in sorted(book.sources.lines):
        aside = key.module.split(".")[0] in ("Calls", "Kept", "Laws")
        if key.crate in crates and aside == (key in book.reached):
            yield f"in a file of the wrong kind: {name_of(key)}"


def rules_before_definitions(book):
    """Each section says something before what it puts in."""
    for page in book.pages:
        for section in re.split(r"^## ", page.text, flags=re.M)[1:]:
            title, _, rest = section.partition("\n")
            mark = MARK.search(rest)
            if mark and not rest[:mark.start()].strip():
                yield f"{page.file}: no rule before the definitions of {title!r}"


def names_of_toolchain(book):
    """Names that definitions use and that are none of the repository's are explained."""
    explained = {*book.explained(), *NAME.findall(notation_of(read(DOCS, "READING.md")))}
    used = set()
    for key in (key for key in book.reached if isinstance(key, Key)):
        names = book.scope(key)[1]
        words = {word.split(".")[0] for word in NAME.findall("\n".join(book.sources.lines[key]))}
        used |= {word for word in words if word in names and not names[word][0].startswith("p11_")}
    for word in sorted(used - explained):
        yield f"the toolchain's name {word} isn't explained"


def notation_of(text):
    return "\n".join(line for line in text.splitlines() if line.startswith("| "))


def registers(book):
    """The registers have the addresses that the definitions have, and their bits are in order."""
    said = set()
    for register in book.registers():
        said.add(int(register.address[:6], 8))
        bits = [bit for field in register.fields for bit in (field.high, field.low)]
        if bits != sorted(bits, reverse=True) or any(not 0 <= bit <= 15 for bit in bits):
            yield f"{register.page.file}: the bits of {register.name}"
        singles = [field for field in register.fields if len({field.high, field.low}) != 1]
        if len({*bits}) != len(register.fields) + len(singles):
            yield f"{register.page.file}: a bit of {register.name} is there twice"
    lines = "\n".join(line for key in book.reached if isinstance(key, Key) for line in book.sources.lines[key])
    there = {int(octal, 8) for octal in re.findall(r"\b0o(7[67]\d{4})\b", lines)}
    there = {address for address in there if address > IO_PAGE and address % 2 == 0}
    for address in sorted(there - said):
        yield f"the address {address:o} of the definitions isn't in a table of registers"
    for address in sorted(said - there):
        yield f"the address {address:o} of a table of registers isn't in the definitions"


def contents(book):
    """Chapters begin with their numbers, and those that words name are there."""
    numbers = {page.number for page in book.pages}
    for page in book.pages:
        if page.number and not page.text.startswith(f"# {page.number}. "):
            yield f"{page.file}: its first line isn't `# {page.number}. ` and its title"
        for said in re.findall(r"\bchapters? (\d+(?:(?:,| and| to)\s\d+)*)", page.text):
            for number in re.findall(r"\d+", said):
                if int(number) not in numbers:
                    yield f"{page.file}: there is no chapter {number}"
        yield from links_to_files(page.text, os.path.join(DOCS, "book.d"), page.file)
    for name in ("BOOK.md", "READING.md"):
        yield from links_to_files(read(DOCS, name), DOCS, name)


def links_to_files(text, folder, name):
    for target in re.findall(r"\]\(([^)#:]+)(?:#[^)]*)?\)", text):
        if not os.path.exists(os.path.join(folder, target)):
            yield f"{name}: a link to {target}, which isn't there"


def words_of_sources():
    """All names in the code of the crates."""
    found = set()
    for path in glob.glob(os.path.join(CRATES, "*", "*", "**", "*.*t*"), recursive=True):
        if path.endswith((".rt", ".antt")):
            code = re.sub(r"//.*", "", "\n".join(map(without_comment, read(path).splitlines())))
            found.update(re.findall(r"[^\W\d][\w']*", code))
    return found


def names_in_words(book):
    """The names and files in `code` of the pages and of docs/READING.md are there."""
    known = {*words_of_sources(), *book.explained(), *NAME.findall(notation_of(read(DOCS, "READING.md")))}
    texts = [(page.file, MARK.sub("", page.text)) for page in book.pages if not page.has_notation]
    for name, text in [*texts, ("BOOK.md", read(DOCS, "BOOK.md")), ("READING.md", read(DOCS, "READING.md"))]:
        lines = [line for line in text.splitlines() if not line.startswith(("| `", "    "))]
        for code in re.findall(r"`([^`]+)`", "\n".join(lines)):
            if re.fullmatch(r"[\w.*-]*(?:/[\w.*-]*)+", code) and not code.startswith("/"):
                if not any(glob.glob(os.path.join(folder, code)) for folder in (TOP, CRATES, DOCS)):
                    yield f"{name}: there is no file {code}"
            elif re.fullmatch(r"[^\W\d][\w']*(?:(?:::|\.)[^\W\d][\w']*)*", code):
                is_file = any(glob.glob(os.path.join(folder, code)) for folder in (TOP, os.path.join(CRATES, "*")))
                for word in () if is_file else re.findall(r"[\w']+", code):
                    if word not in known:
                        near = " or ".join(difflib.get_close_matches(word, known))
                        yield f"{name}: {word} is no name of the sources" + (f"; there is {near}" if near else "")


def quoted(text):
    """The lines that a document shows, each with the files that the words before them name."""
    files = []
    for part in re.split(r"\n\n+", text):
        if not part.startswith("    "):
            cited = re.findall(r"`(crates/[\w/]+\.(?:antt|rt))`", part)
            files = [path for path in cited if os.path.exists(os.path.join(TOP, path))] or files
        else:
            yield dedented(part), files


def quotations(name):
    """The lines that a document shows are in a file that the words before them name."""
    for lines, files in quoted(read(DOCS, name)):
        if not any(lines in dedented(read(TOP, path)) for path in files):
            there = [line for path in files for line in dedented(read(TOP, path)).splitlines()]
            gone = next((line for line in lines.splitlines() if line not in there), lines.splitlines()[0])
            near = difflib.get_close_matches(gone, there, 1)
            said = f"{name}: these lines aren't in {' or '.join(files)}: {gone}"
            yield said + (f"; there is: {near[0]}" if near else "")


def rests_on(book):
    """In each section of the theorem's page, the names behind `Definitions:` are reached by the clause that is shown, and
    those behind `Contracts:` are functions with a contract."""
    functions = book.sources.contracted()
    for section in re.split(r"^## ", read(DOCS, THEOREM), flags=re.M)[1:]:
        title = section.partition("\n")[0]
        reached = {key.name for key in reached_by_quoted(book, section) if isinstance(key, Key)}
        for label, there in (("Definitions", reached), ("Contracts", functions)):
            for part in re.findall(rf"^- {label}: (.*?)(?=^- |\n\n|\Z)", section, re.M | re.S):
                for name in re.findall(r"`(?:\w+::)?([\w']+)`", part):
                    if name not in there:
                        yield f"{THEOREM}: {title} doesn't rest on {name}, which is behind `{label}:`"


def reached_by_quoted(book, section):
    """What the clauses that a section shows reach, with the record of the state that they speak of."""
    begin = {Key("p11_cpu", "State", "State")}
    for lines, files in quoted(section):
        for path in files:
            begin |= book.sources.named(lines, ghost_scope(read(TOP, path)))
    return book.sources.reached(begin)


def dedented(text):
    return "\n".join(line.strip() for line in text.splitlines() if line.strip())


class Places(html.parser.HTMLParser):
    """The places of a page, and the places to which it links, with the files that it loads."""

    def __init__(self, page):
        super().__init__()
        self.places, self.links = [], set()
        self.feed(page)

    def handle_starttag(self, tag, attributes):
        for name, value in attributes:
            if name == "id":
                self.places.append(value)
            elif name in ("href", "src"):
                self.links.add(value)


def names_without_link(book, page):
    """The names in definitions that don't lead to their definitions in the made page."""
    blocks = dict(re.findall(r'^<div id="(.*?)">\n(.*?)^</div>', page, re.M | re.S))
    for key in (key for key in book.reached if isinstance(key, Key)):
        if anchor(key) not in blocks:
            continue
        links = set(re.findall(r'href="#(.*?)"', blocks[anchor(key)]))
        for other in book.sources.named("\n".join(book.sources.lines[key]), book.scope(key)) - {key}:
            if anchor(other) not in links and not other[-1].startswith("◌"):
                yield f"{name_of(key)} names {name_of(other)} without a link"


def links_between(files):
    """The links of the pages of chapters that go nowhere: to a place that a page hasn't, or to no page."""
    places = {name: Places(text) for name, text in files.items() if name.endswith(".html")}
    for name, page in sorted(places.items()):
        for target in sorted(page.links):
            file, _, place = target.partition("#")
            if file and file not in files or place and place not in places.get(file or name, page).places:
                yield f"{name} has a link to {target}, which isn't there"


def links_to_nowhere(page):
    """The links of the made page that go nowhere, and places that are there twice."""
    found = Places(page)
    for target in sorted(found.links):
        if target.startswith("#") and target[1:] not in found.places:
            yield f"the page has a link to {target}, which isn't in it"
        elif not target.startswith("#"):
            yield f"the page has a link out of itself, to {target}"
    for place in sorted({place for place in found.places if found.places.count(place) > 1}):
        yield f"the page has the place {place} twice"
