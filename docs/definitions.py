"""The definitions of crates/*/specs as docs/believe counts them and docs/book shows them, and those that the headline
reaches. A module for these two scripts; it isn't run by itself.

The headline reaches the names in the clauses of `play` and of `session`, the record `State` that the model of a machine
is, every definition that one of these names by the `use` lines of its file, and so on. Types that are declared in
src/*.rt and that definitions name are read too.
"""
import collections
import glob
import os
import re

CRATES = os.path.join(os.path.dirname(os.path.abspath(__file__)), "..", "crates")
NAME = re.compile(r"[A-Za-z_][\w']*(?:\.[A-Za-z_][\w']*)*")
USE = re.compile(r"use\s+Rattle\.([\w.]+?)(?:\.\{([^}]*)\}|\s+as\s+(\w+)|(?=[\s;]|$))")
HEAD = re.compile(r"^\s*(?:abbrev\s+|unfoldable\s+|pub\s+)+(record\s+|data\s+)?(◌[^\s◌]+◌|[A-Za-z_][\w']*)")
PRIVATE = re.compile(r"^([A-Za-z_][\w']*)\s*:")
FUNCTION = re.compile(r"^\s*(pub(?:\(crate\))? )?(?:unsafe )?fn (\w+)")
CLAUSE = re.compile(r"\b(?:ensures|requires)\b\s*(\w*)(.*?)(?=\b(?:ensures|requires)\b|\Z)", re.S)
TYPE = re.compile(r"^pub(?:\(crate\))? (?:struct|enum) (\w+)")
Key = collections.namedtuple("Key", "crate module name")


def without_comment(line):
    return re.sub(r"(?:^|(?<=\s))--.*", "", line).rstrip()


def imports(text):
    """What a file's `use` lines bring in: names, and modules by their short names."""
    names, modules = {}, {}
    for path, listed, short in USE.findall(text):
        if not listed:
            modules[short or path.split(".")[-1]] = path
        for item in filter(None, map(str.strip, listed.split(","))):
            real, _, local = item.partition(" as ")
            names[local or real] = (path, real)
    return names, modules


def ghost_scope(text):
    """What the names in the clauses of a file of the program mean."""
    return {}, *imports("\n".join("use " + use for use in re.findall(r"ghost use ([^;]*);", text)))


def comment_at_end(lines):
    """The lines after the last empty one."""
    while "" in lines:
        lines = lines[lines.index("") + 1:]
    return list(lines)


class Sources:
    """All definitions, and the types that are declared in src.

    `lines` has the lines of each definition that count: without comments. `texts` has a definition as its file has it:
    the comment right above it, its lines and what stands between them. `types` counts the lines of the declared types,
    `texts` has them too, without the lines of attributes, and `paths` has the file of each definition and type.
    """

    def __init__(self):
        self.lines, self.texts, self.paths, self.scopes, self.types = {}, {}, {}, {}, {}
        for path in sorted(glob.glob(os.path.join(CRATES, "*", "specs", "**", "*.antt"), recursive=True)):
            self.read_definitions(path)
        for path in sorted(glob.glob(os.path.join(CRATES, "*", "src", "**", "*.rt"), recursive=True)):
            self.read_types(path)

    def read_definitions(self, path):
        crate, module = crate_of(path), module_of(path)
        with open(path, encoding="utf-8") as file:
            read = [line.rstrip() for line in file]
        local, now, record_at, waiting, above = {}, None, None, [], []
        for whole in read:
            line = without_comment(whole)
            if not line:
                above.append(whole)
                continue
            if line.startswith(("use ", "pub mod", "module ")):
                now, above = None, [whole] if line.startswith("module ") else []
                continue
            if line.startswith("infix"):
                waiting, above = [line], above + [whole]
                continue
            indent = len(line) - len(line.lstrip())
            head = HEAD.match(line) if indent == 0 or (indent == 2 and record_at != 0) else None
            name = head.group(2) if head else None
            if name is None and indent == 0 and PRIVATE.match(line) and PRIVATE.match(line).group(1) not in local:
                name = PRIVATE.match(line).group(1)
            if name is not None:
                now, record_at = Key(crate, module, name), indent if head and head.group(1) else None
                local[name] = now
                self.lines[now], waiting = waiting, []
                self.texts[now], above = comment_at_end(above), []
                self.paths[now] = os.path.relpath(path, CRATES)
            elif indent == 0:
                record_at = None
            if now is not None:
                self.lines[now].append(line)
                self.texts[now] += above + [whole]
                above = []
        lines = [line for line in map(without_comment, read) if line]
        self.scopes[crate, module] = (local, *imports("\n".join(lines)))

    def read_types(self, path):
        """The lines of each declared type."""
        name, above = None, []
        with open(path, encoding="utf-8") as file:
            for line in file:
                found = TYPE.match(line)
                text = line.strip()
                if found:
                    name = ("type", crate_of(path), found.group(1))
                    self.types.setdefault(name, 0)
                    self.texts.setdefault(name, above)
                    self.paths.setdefault(name, os.path.relpath(path, CRATES))
                above = above + [line.rstrip()] if text.startswith("///") else above if text.startswith("#[") else []
                if name and not text.startswith("#["):
                    self.texts[name].append(line.rstrip())
                if name and text and not text.startswith(("//", "#[")):
                    self.types[name] += 1
                if name and (text == "}" or text.endswith((";", "{}"))) and (found or not line.startswith(" ")):
                    name = None

    def at(self, path, name):
        """The definition or the declared type of a name in a module, if it is one of the repository's."""
        parts = path.split(".")
        if len(parts) < 3 or parts[1] != "specs":
            return None
        if parts[2] == "declared":
            kind = ("type", parts[0], [part for part in parts if part != "TheVariants"][-1])
            return kind if kind in self.types else None
        key = Key(parts[0], ".".join(parts[2:]), name)
        return key if key in self.lines else None

    def named(self, text, scope):
        """What a text names."""
        return set(self.meant(text, scope).values())

    def of_word(self, word, scope):
        """The part of a word that stands for a definition or declared type, and which; None if it is another's."""
        local, names, modules = scope
        head, _, rest = word.partition(".")
        if head in local:
            return head, local[head]
        if head in names:
            return head, self.at(*names[head])
        if head in modules and rest:
            name = rest.split(".")[0]
            return f"{head}.{name}", self.at(modules[head], name)
        return word, None

    def meant(self, text, scope):
        """The definition or declared type that each name in a text stands for, as the text has the name."""
        found = dict(self.of_word(word, scope) for word in NAME.findall(text))
        for word in [*scope[0], *scope[1]]:
            sign = word.strip("◌")
            if word.startswith("◌") and (sign in text or sign == ">>=" and re.search(r"\bdo\b", text)):
                found[word] = self.of_word(word, scope)[1]
        return {word: key for word, key in found.items() if key is not None}

    def reached(self, begin):
        done, todo = set(), list(begin)
        while todo:
            key = todo.pop()
            if key not in done:
                done.add(key)
                if isinstance(key, Key):
                    todo += self.named("\n".join(self.lines[key]), self.scopes[key.crate, key.module])
        return done

    def clauses(self, path, wanted, without=()):
        """What the clauses of the functions of a file name, where `wanted` of name and visibility holds, but for the
        clauses of the names in `without`."""
        with open(path, encoding="utf-8") as file:
            text = file.read()
        scope, found, head, clause = ghost_scope(text), set(), None, []
        for line in re.sub(r"//.*", "", text).split("\n"):
            head = FUNCTION.match(line) or head
            if head is None:
                continue
            begins = re.search(r"\b(ensures|requires)\b", line)
            if begins or clause:
                clause.append(line)
            if line.strip() in ("{", "{}") or line.endswith((";", "{")) and not clause:
                if clause and wanted(head.group(2), head.group(1) or ""):
                    for name, said in CLAUSE.findall("\n".join(clause)):
                        found |= set() if name in without else self.named(said, scope)
                head, clause = None, []
        return found

    def contract(self, crate, name):
        """A public call of a crate: its file, its text from the first line to its body, and what its names mean."""
        for path in sorted(glob.glob(os.path.join(CRATES, crate, "src", "**", "*.rt"), recursive=True)):
            with open(path, encoding="utf-8") as file:
                text = file.read()
            found = re.search(r"^pub fn %s\b.*?(?=^\{)" % re.escape(name), text, re.M | re.S)
            if found:
                return os.path.relpath(path, CRATES), found.group(0).rstrip(), ghost_scope(text)
        return None

    def contracted(self):
        """The names of all functions with a clause."""
        names = set()

        def note(name, _):
            names.add(name)
            return False

        for path in glob.glob(os.path.join(CRATES, "*", "src", "**", "*.rt"), recursive=True):
            self.clauses(path, note)
        return names

    def contracts(self, wanted):
        """What the clauses of all functions name, and what those definitions name."""
        paths = glob.glob(os.path.join(CRATES, "*", "src", "**", "*.rt"), recursive=True)
        return self.reached(set().union(*(self.clauses(path, wanted) for path in paths)))


def crate_of(path):
    return os.path.relpath(path, CRATES).split(os.sep)[0]


def module_of(path):
    """A file's module: `Turns`, or `Kept.View` for specs/Kept/View.antt."""
    return ".".join(os.path.splitext(os.path.relpath(path, CRATES))[0].split(os.sep)[2:])


def by_play(sources, without=()):
    """What `play` reaches, but for its clauses of the names in `without`, with the record of a machine's state."""
    path = os.path.join(CRATES, "p11_panel", "src", "playing.rt")
    state = {Key("p11_cpu", "State", "State")}
    return sources.reached(state | sources.clauses(path, lambda name, _: name == "play", without))


def by_headline(sources, without=()):
    """What `play` and `session` reach, `play` but for its clauses of the names in `without`."""
    path = os.path.join(CRATES, "p11_panel", "src", "script.rt")
    return by_play(sources, without) | sources.reached(sources.clauses(path, lambda name, _: name == "session"))
