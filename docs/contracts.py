#!/usr/bin/env python3
"""docs/contracts.py [--write]: whether docs/contracts is the list of the contracts as they are.

The list has a line for each call of a crate that others may make, for each other function that a document claims something of
(docs/claims.py), for the view, the invariant and other ghost members of each type and trait, for each definition that the documents
name, that the clauses of these calls reach (docs/definitions.py), or that the headline and the session cite, and for each type that
such a definition names: the crate, the name, and the first 12 digits of a SHA-256 sum. The sum is of what the reader of a contract
reads: the signature with all `requires` and `ensures`, the ghost member, the text of the definition or of the type, and what each
name of a definition there stands for. Comments, layout and bodies don't count. Each line that differs is named, and so is a function
of which a document claims something by its name and which has no clause; --write puts the list down as it is. Exit status 1: there is
one of either.
"""
import collections
import glob
import hashlib
import os
import re
import sys

sys.dont_write_bytecode = True
HERE = os.path.dirname(os.path.realpath(__file__))
sys.path.append(os.path.join(HERE, "..", "tools"))
import claims  # noqa: E402 (no compiled file is left beside the script, and the path is set first)
import definitions  # noqa: E402
from functions import OWNER, functions, owner_of  # noqa: E402

WORD = re.compile(r"[\w']+|[^\w\s]")
GHOST = re.compile(r"^    (?:pub )?ghost (?!use\b)(?P<name>\w+)", re.M)
Source = collections.namedtuple("Source", "crate path text")


def tokens(text):
    """The words and signs of a text, without its comments, and without a comma that the layout alone puts before a bracket."""
    found = WORD.findall(re.sub(r"//.*", "", text))
    return [word for word, after in zip(found, [*found[1:], ""]) if word != "," or after not in ")]}>"]


def sum_of(texts):
    return hashlib.sha256("\n".join(" ".join(tokens(text)) for text in texts).encode()).hexdigest()[:12]


def meanings(sources, text, scope):
    """What each name of a definition or declared type in a text stands for, as a text."""
    return "\n".join(sorted(f"{word} {'.'.join(key)}" for word, key in sources.meant(text, scope).items()))


def end_of_member(text, at):
    """Where a ghost member ends that has its name here: behind the first semicolon or comma that is in no bracket."""
    depth = 0
    while depth or text[at] not in ";,":
        depth += (text[at] in "({[") - (text[at] in ")}]")
        at += 1
    return at + 1


def ghost_members(text):
    """The ghost members of a source's traits, of its implementations of traits and of its types, with their owners' names."""
    begins = list(re.finditer(r"^(?:" + OWNER.pattern + r"|(?:pub )?(?:struct|enum) (?P<type>\w+)).*$", text, re.M))
    for begin, end in zip(begins, [*(found.start() for found in begins[1:]), len(text)]):
        owner = begin["type"] or owner_of(begin[0])
        for member in GHOST.finditer(text, begin.start(), end):
            yield f"{owner}::{member['name']}", text[member.start() : end_of_member(text, member.end())]


def read_sources():
    """The sources of all crates."""
    for path in sorted(glob.glob(os.path.join(definitions.CRATES, "*", "src", "**", "*.rt"), recursive=True)):
        with open(path, encoding="utf-8") as file:
            crate = definitions.crate_of(path)
            yield Source(crate, os.path.relpath(path, os.path.join(definitions.CRATES, crate, "src")), file.read())


def names_in(claimed, crate, path):
    """The names of the claims about a file."""
    return {name for claim in claimed if claims.is_in(crate, path, claim.files) for name in claim.names}


def stated(source, named):
    """What a source states to others: the signatures with their clauses of its calls and of the functions that are named, and
    ghost members, with their names."""
    for it in functions(source.text):
        if it.is_public or any(claims.names_function(name, it.name) for name in named):
            yield it.name, source.text[it.head : it.body]
    yield from ghost_members(re.sub(r"//.*", "", source.text))


def claimed_definitions(sources, claimed):
    """The definitions that the documents name."""
    for key in sources.lines:
        path = os.path.join(*key.module.split(".")) + ".antt"
        if key.name in names_in(claimed, key.crate, path):
            yield key


def contracts(sources, claimed):
    """The list: the sum of each crate and name."""
    texts, cited = collections.defaultdict(list), set(claimed_definitions(sources, claimed))
    for source in read_sources():
        scope = definitions.ghost_scope(source.text)
        for name, text in stated(source, names_in(claimed, source.crate, source.path)):
            texts[source.crate, name] += [text, meanings(sources, text, scope)]
            cited |= sources.named(text, scope)
    for key in sources.reached(cited | definitions.by_headline(sources)):
        if isinstance(key, definitions.Key):
            text = "\n".join(sources.lines[key])
            texts[key.crate, f"{key.module}.{key.name}"] = [text, meanings(sources, text, sources.scopes[key.crate, key.module])]
        else:
            texts[key[1], key[2]].append("\n".join(sources.texts[key]))
    return {name: sum_of(parts) for name, parts in texts.items()}


def without_clause(claimed):
    """A line for each function that a claim names, that is no method of a trait, and that has no clause."""
    for source in read_sources():
        for it in functions(source.text):
            text = source.text[it.head : it.body]
            for claim in claimed:
                is_named = any(name.split("::")[-1] == it.name.split("::")[-1] and claims.names_function(name, it.name) for name in claim.names)
                if is_named and claims.is_in(source.crate, source.path, claim.files) and not it.is_of_trait and "ensures" not in text:
                    yield f"{claim.where}: {it.name} ({source.crate}) has no clause"


def read_list(path):
    """The sums that a list has, by crate and name."""
    if not os.path.exists(path):
        return {}
    with open(path, encoding="utf-8") as file:
        return {(crate, name): digits for crate, name, digits in map(str.split, file)}


def differences(was, now):
    """A line for each name whose sum is another, that is new, or that is gone."""
    for key in sorted({*was, *now}):
        if was.get(key) != now.get(key):
            how = "new" if key not in was else "gone" if key not in now else "changed"
            yield f"contract {how}: {key[1]} ({key[0]})"


def main():
    claimed = list(claims.claims())
    path, now = os.path.join(HERE, "contracts"), contracts(definitions.Sources(), claimed)
    if "--write" in sys.argv[1:]:
        with open(path, "w", encoding="utf-8") as file:
            file.writelines(f"{crate} {name} {digits}\n" for (crate, name), digits in sorted(now.items()))
        return 0
    found, bare = list(differences(read_list(path), now)), list(without_clause(claimed))
    for line in [*found, *bare]:
        print(line)
    if found:
        print("docs/contracts isn't the list of these sources: read what has changed (CONTRIBUTING), then docs/contracts.py --write")
    return 1 if found or bare else 0


if __name__ == "__main__":
    sys.exit(main())
