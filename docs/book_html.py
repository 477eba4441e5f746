"""The book in HTML, as one page and as a page a chapter. A module for docs/book; it isn't run by itself. The words go through
cmark-gfm, GitHub's Markdown (Debian: apt-get install cmark-gfm); docs/book_code.py sets the definitions."""
import collections
import html
import json
import os
import re
import subprocess

import book_index
from book_code import Code, anchor, link
from book_pages import DOCS, MARK, REGISTERS, plain_name, slug

OWN = '<abbr class="own" title="This project\'s choice: the handbooks leave it open, or models differ">own</abbr>'


def register_place(register):
    return f"r{register.address[:6]}"


def markdown(text):
    command = ["cmark-gfm", "-e", "table", "--unsafe"]
    return subprocess.run(command, input=text, capture_output=True, text=True, check=True).stdout


class HtmlPage:
    def __init__(self, book):
        self.book = book
        self.code = Code(book)
        self.index, self.sections = collections.defaultdict(list), collections.defaultdict(list)
        self.terms = collections.Counter()

    def block(self, page, crate, kind, names):
        """What a mark puts in."""
        if crate == "map":
            return self.map()
        if crate == "notation":
            return markdown(notation())
        shown = self.book.put_in(page, crate, kind, names)
        said = "; ".join(self.book.meant_of_several(shown.keys))
        head = html.escape(", ".join(shown.paths)) + (f"<br>{html.escape(said)}" if said else "")
        for key in shown.keys:
            name = plain_name(key).strip("◌")
            self.index[name].append((anchor(key), f"<code>{html.escape(name)}</code>", page))
        body = "\n".join(self.code.definition(key) for key in shown.keys)
        return f'<section class="put"><header>{head}</header>\n{body}\n</section>'

    # Registers

    def drawn(self, fields):
        """The sixteen bits of a register as boxes."""
        boxes, at = [], 15
        for one in [*fields, None]:
            high = one.high if one else -1
            if at > high:
                boxes.append(f'<span class="none" style="--n:{at - high}"></span>')
            if one:
                at = one.low - 1
                bits = str(high) if high == one.low else f"<s>{high}</s><s>{one.low}</s>"
                name = html.escape(one.name)
                boxes.append(f'<span style="--n:{high - one.low + 1}"><small>{bits}</small>{name}</span>')
        return f'<div class="bits">{"".join(boxes)}</div>'

    def registers(self, page):
        rows = []
        for register in page.registers:
            name = register.name.split(",")[0]
            self.index[name].append((register_place(register), html.escape(name), page))
            said = (register.address, html.escape(register.name), register.access)
            cells = "".join(f"<td>{cell}</td>" for cell in said)
            rows.append(f'<tbody id="{register_place(register)}"><tr>{cells}</tr>'
                        f'<tr><td colspan="3">{self.drawn(register.fields)}</td></tr></tbody>')
        head = "<thead><tr><th>Address</th><th>Register</th><th>Access</th></tr></thead>"
        return f'<table class="registers">{head}{"".join(rows)}</table>'

    def map(self):
        rows = [f"<tr><td>{register.address}</td><td>{link(register_place(register), html.escape(register.name))}</td>"
                f"<td>{link(register.page.place, register.page.number)}</td></tr>"
                for register in self.book.registers()]
        return f"<table><tr><th>Address</th><th>Register</th><th>Chapter</th></tr>{''.join(rows)}</table>"

    # Words

    def headed(self, page, found):
        """A heading with its place, and the name that it is given in the contents."""
        level, title = found.groups()
        place = page.place if level == "1" else f"{page.place}-{slug(re.sub('<.*?>', '', title))}"
        if level == "2":
            self.sections[page].append((place, title))
        return f'<h{level} id="{place}">{title}</h{level}>'

    def indexed(self, page, found):
        """A term in bold is in the index."""
        term = found.group(1)
        self.terms[page] += 1
        place = f"{page.place}-term-{self.terms[page]}"
        self.index[re.sub("<.*?>", "", term)].append((place, term, page))
        return f'<strong id="{place}">{term}</strong>'

    def chapters_named(self, found):
        """`chapters 1 to 15`, with links."""
        return f"{found[1]}&nbsp;" + re.sub(r"\d+", lambda number: link(f"c{int(number[0]):02}", number[0]), found[2])

    def words(self, page):
        """A page in HTML, with comments in the place of what is put in."""
        made = markdown(REGISTERS.sub("<!-- registers -->\n", page.text))
        made = re.sub(r"<h(\d)>(.*?)</h\d>", lambda found: self.headed(page, found), made)
        made = re.sub(r"<strong>(.*?)</strong>", lambda found: self.indexed(page, found), made, flags=re.S)
        made = re.sub(r"\b(chapters?)\s(\d+(?:(?:,| and| to)\s\d+)*)", self.chapters_named, made)
        made = re.sub(r"<p>Worked", '<p class="worked"><em>Worked</em>', made)
        made = made.replace("[own]", OWN)
        made = re.sub(r"<pre><code>(.*?)</code></pre>", self.clause, made, flags=re.S)
        return self.names_of_toolchain(made) if page.has_notation else self.code.linked_names(made, "<code>")

    def clause(self, found):
        """Lines of code among the words, a clause mostly: set as definitions are, with its names as links."""
        lines = html.unescape(found.group(1)).rstrip("\n").split("\n")
        coded = [self.code.code(line, self.code.meaning_in_words, None) for line in lines]
        return '<section class="put"><div>' + "\n".join(f'<code style="--i:0">{line}</code>' for line in coded) + "</div></section>"

    def names_of_toolchain(self, made):
        """The page with the notation, with a place for each name of the toolchain where the table first has it."""
        for name in self.code.explained:
            made = re.sub(f"<code>{name}\\b", f'<code><dfn id="kit-{name}">{name}</dfn>', made, count=1)
        return made

    def chapter(self, page):
        made = self.words(page)
        made = made.replace("<!-- registers -->", self.registers(page), 1)
        return MARK.sub(lambda mark: self.block(page, *(part or "" for part in mark.groups())), made)

    # The pages

    def contents(self, now=None):
        made = []
        for page in self.book.pages:
            inner = "".join(f"<li>{link(*section)}</li>" for section in self.sections[page])
            opened = " open" if page is now else ""
            made.append(f"<details{opened}><summary>{link(page.place, titled(page))}</summary><ul>{inner}</ul></details>")
        return "\n".join(made) + f'<p>{link("index", "Index")}</p>'

    def articles(self):
        """The chapters in HTML, each with its page, and the index with none."""
        made = [(page, self.chapter(page)) for page in self.book.pages]
        return [*made, (None, book_index.made(self.book, self.index, link))]

    def whole(self):
        """All on one page, for paper."""
        chapters = "\n".join(f"<article>{made}</article>" for _, made in self.articles())
        return framed("", f"<style>\n{read('book.css')}</style>", self.contents(), chapters, "")

    def files(self):
        """The book as files by their names: a page a chapter, and what these load."""
        articles = self.articles()
        owner = {place: file_of(page) for page, made in articles for place in re.findall(r'\bid="(.*?)"', made)}
        made = {"book.css": read("book.css"), "search.js": read("book_search.js"), "places.js": self.places(articles)}
        for at, (page, article) in enumerate(articles):
            before = [link(place_of(other), "← " + titled(other)) for other, _ in articles[max(0, at - 1):at]]
            behind = [link(place_of(other), titled(other) + " →") for other, _ in articles[at + 1:at + 2]]
            around = f'<p class="around">{" ".join(before + behind)}</p>'
            text = framed(titled(page) + " · ", '<link rel="stylesheet" href="book.css">', SEARCH + self.contents(page),
                          f"<article>{article}</article>\n{around}", SCRIPTS)
            made[file_of(page)] = re.sub(r'href="#(.*?)"', lambda found, page=page: self.led(owner, page, found[1]), text)
        return made

    def led(self, owner, page, target):
        """A link to a place, on another page if that has it."""
        file = owner.get(target, file_of(page))
        return f'href="#{target}"' if file == file_of(page) else f'href="{file}#{target}"'

    def places(self, articles):
        """What the search looks through: sections with their words, definitions and registers by their names."""
        found = []
        for page, article in articles[:-1]:
            parts = re.split(r'<h[12] id="(.*?)">(.*?)</h[12]>', article)
            for target, title, text in zip(parts[1::3], parts[2::3], parts[3::3]):
                words = " ".join(html.unescape(re.sub(r"<.*?>", " ", re.sub(r"(?s)<section.*?</section>", " ", text))).split())
                name = html.unescape(re.sub("<.*?>", "", title))
                found.append([f"{page.number or page.title}: {name}", f"{file_of(page)}#{target}", words])
        for name, places in sorted(self.index.items()):
            found += [[html.unescape(name), f"{file_of(page)}#{target}", titled(page)] for target, _, page in places]
        for word, places in book_index.terms(self.book):
            found += [[word, f"{file_of(page)}#{target}", titled(page)] for target, page in places if target]
        return f"const PLACES = {json.dumps(found, ensure_ascii=False)};\n"


SEARCH = '<input type="search" id="search" placeholder="Search" aria-label="Search"><ul id="found"></ul>\n'
SCRIPTS = '<script src="places.js"></script>\n<script src="search.js"></script>\n'


def titled(page):
    """The title of a chapter with its number; of the index, which is no chapter."""
    return "Index" if page is None else f"{page.number}. {page.title}" if page.number else page.title


def place_of(page):
    return "index" if page is None else page.place


def file_of(page):
    """The file of a chapter; of the index."""
    return "words.html" if page is None else "index.html" if page.place == "promises" else f"{page.place}.html"


def read(name):
    with open(os.path.join(DOCS, name), encoding="utf-8") as file:
        return file.read()


def framed(title, style, contents, main, scripts):
    """A page."""
    return f"""<!doctype html>
<html lang="en">
<head>
<meta charset="utf-8">
<meta name="viewport" content="width=device-width, initial-scale=1">
<meta name="color-scheme" content="light dark">
<title>{title}The PDP-11/40 of p11</title>
{style}
</head>
<body>
<nav><p class="title">{link("promises", "The PDP-11/40 of p11")}</p>
<input type="checkbox" id="menu"><label for="menu">Contents</label>
<div class="toc">
{contents}
</div>
</nav>
<main>
{main}
</main>
{scripts}</body>
</html>
"""


def notation():
    """The table of the notation in docs/READING.md."""
    with open(os.path.join(DOCS, "READING.md"), encoding="utf-8") as file:
        return re.search(r"^\| It reads .*?(?=^$)", file.read(), re.M | re.S).group(0)
