"""Definitions, types and calls as HTML, with a link from each name to its definition. A module for docs/book; it isn't
run by itself."""
import collections
import html
import re

from book_pages import plain_name
from definitions import Key

TOKEN = re.compile(r"[^\W\d][\w']*(?:\.[^\W\d][\w']*)*|>>=|>>")
SIGNS = {">>=": "◌>>=◌", ">>": "◌>>◌", "do": "◌>>=◌"}
KEYWORDS = {"abbrev", "unfoldable", "pub", "record", "where", "if", "then", "else", "let", "in", "do", "module",
            "infixl", "enum", "struct", "crate", "fn", "ensures"}


def anchor(key):
    """The name of a definition's place in the page."""
    name = ".".join(key)
    return re.sub(r"[^\w.]", lambda sign: f"-{ord(sign[0]):x}", name)


def link(target, text):
    return f'<a href="#{target}">{text}</a>'


def bound(lines, name):
    """The small names that a definition binds itself: its parameters, and those of λ, let, ← and (x : ..)."""
    text = "\n".join(lines)
    found = re.findall(r"λ ([^.]*)\.|([\w']+) ←|\blet ([\w']+) =|\(((?:[\w']+ )+):", text)
    found += [(left,) for left in re.findall(r"^\s*%s\b([^=:]*?)(?: =|$)" % re.escape(name), text, re.M)]
    return {word for groups in found for word in re.findall(r"\b[a-z_][\w']*", " ".join(groups))}


class Code:
    """How the book's definitions are set. The methods named meaning_of_.. give a function of a word, its line and its
    place in it: the part of the word that stands for something, and a link with `@` in the place of that part, or None.
    """

    def __init__(self, book):
        self.book = book
        self.explained = book.explained()
        by_name = collections.defaultdict(list)
        for key in book.shown:
            by_name[plain_name(key)].append(key)
        self.only = {name: keys[0] for name, keys in by_name.items() if len(keys) == 1}

    def code(self, line, meaning, name):
        """A line of a definition with its links."""
        parts, at = [], 0
        for token in TOKEN.finditer(line):
            parts.append(html.escape(line[at:token.start()]))
            word, at = token.group(0), token.end()
            part, target = meaning(word, line, token.start())
            if target:
                parts.append(target.replace("@", html.escape(part)) + html.escape(word[len(part):]))
            elif word in KEYWORDS:
                parts.append(f"<i>{word}</i>")
            else:
                parts.append(f"<b>{word}</b>" if word == name else html.escape(word))
        return "".join(parts) + html.escape(line[at:])

    def text(self, lines, meaning, name):
        """The lines of a definition. Comment lines that follow one another are one paragraph."""
        made, comment = [], None
        for line in lines:
            indent = len(line) - len(line.lstrip())
            remark = re.match(r"\s*(?:--|///?)\s?(.*)", line)
            if remark and comment is not None and comment[0] == indent:
                comment[1].append(remark.group(1))
                continue
            if comment:
                made.append(self.remark(*comment))
            comment = (indent, [remark.group(1)]) if remark else None
            if not remark and line.strip():
                made.append(f'<code style="--i:{indent}">{self.code(line.strip(), meaning, name)}</code>')
        if comment:
            made.append(self.remark(*comment))
        return "\n".join(made)

    def remark(self, indent, lines):
        return f'<p style="--i:{indent}">{self.linked_names(html.escape(" ".join(lines)), "`")}</p>'

    def meaning_of_definition(self, key):
        scope = self.book.scope(key)
        local = bound(self.book.sources.lines[key], key.name)

        def meaning(word, line, at):
            if word.split(".")[0] in local or word == key.name:
                return word, None
            part, found = self.book.sources.of_word(SIGNS.get(word, word), scope)
            if found in self.book.shown:
                return word if word in SIGNS else part, link(anchor(found), "@")
            return word, self.toolchain(word.split(".")[0]) if part in scope[1] and not found else None
        return meaning

    def toolchain(self, word):
        said = re.sub(r"[`\\]", "", self.explained.get(word, ""))
        return f'<a class="kit" href="#kit-{word}" title="{html.escape(said, quote=True)}">@</a>' if said else None

    def meaning_of_type(self, key):
        """In a type of the program: another type's name where a type stands."""
        def meaning(word, line, at):
            found = ("type", key[1], word) if ("type", key[1], word) in self.book.shown else self.only.get(word)
            is_type = at > 0 and line[at - 1] in "(<[ " and not re.search(r"\b(enum|struct)\b", line)
            if is_type and found and found != key and not isinstance(found, Key) and found[0] == "type":
                return word, link(anchor(found), "@")
            return word, None
        return meaning

    def meaning_in_words(self, word, line, at):
        """Among the words: a name that one definition, type or call alone has, or one of the toolchain's."""
        name = word.split(".")[0]
        if name in self.only and re.search(r"[A-Z_]", name):
            return name, link(anchor(self.only[name]), "@")
        return name, self.toolchain(name)

    def meaning_of_call(self, scope):
        def meaning(word, line, at):
            part, found = self.book.sources.of_word(word, scope)
            return part, link(anchor(found), "@") if found in self.book.shown else None
        return meaning

    def linked_names(self, text, quote):
        """Names of definitions in words, with links. Small words without a `_` are the operator's commands too."""
        begin, end = ("<code>", "</code>") if quote == "<code>" else (quote, quote)

        def linked(found):
            name, rest = found.groups()
            key = self.only.get(name) if re.search(r"[A-Z_]", name) else None
            target = link(anchor(key), name) if key else (self.toolchain(name) or "@").replace("@", name)
            return f"<code>{target}{rest}</code>"
        return re.sub(f"{re.escape(begin)}([\\w']+)((?: [^<`]*)?){re.escape(end)}", linked, text)

    def definition(self, key):
        name = plain_name(key)
        if isinstance(key, Key):
            lines, meaning = self.book.sources.texts[key], self.meaning_of_definition(key)
        elif key[0] == "call":
            _, text, scope = self.book.sources.contract(key[1], name)
            lines, meaning = text.split("\n"), self.meaning_of_call(scope)
        else:
            lines, meaning = self.book.sources.texts[key], self.meaning_of_type(key)
        return f'<div id="{anchor(key)}">\n{self.text(lines, meaning, name)}\n</div>'
