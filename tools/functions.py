"""The functions of a source of Rattle, in rt fmt's layout. A module for other scripts; it isn't run by itself."""
import re

FUNCTION = re.compile(r'(?P<indent> *)(?P<seen>pub(?:\([\w ]+\))? )?(?:const |unsafe |extern "C" )*fn (?P<name>\w+)')
OWNER = re.compile(r"(?:pub(?:\([\w ]+\))? )?(?:unsafe )?(?:impl|trait)\b")


class Function:
    """A function of a source: its name, `Type::method` or `function`; whether others than its crate may call it, and whether a trait
    asks for it; and the offsets where it begins (its attributes), where its signature begins, where its body begins and where it
    ends."""

    def __init__(self, name, is_public, is_of_trait, begin, head):
        self.name, self.is_public, self.is_of_trait = name, is_public, is_of_trait
        self.begin, self.head, self.body, self.end = begin, head, None, None

    def lines(self, source):
        """The numbers of its first line and of its last, from 1."""
        return source.count("\n", 0, self.begin) + 1, source.count("\n", 0, self.end)


def owner_of(line):
    """The type or trait of a line that begins an impl or a trait. For a trait's impl it is both names in one, the type's first, as
    the prover has it."""
    line = line.replace("->", "")
    while re.search(r"<[^<>]*>", line):
        line = re.sub(r"<[^<>]*>", "", line)
    if both := re.search(r"\bimpl (?:\w+::)*(\w+) for (?:\w+::)*(\w+)", line):
        return both[2] + both[1]
    found = re.search(r"\b(?:impl|trait) (?:\w+::)*(\w+)", line)
    return found[1] if found else None


def is_open(line):
    """Whether the methods of an impl or a trait that begins with this line are called by others without a `pub`."""
    return " for " in line or line.startswith("pub trait ")


def functions(source):
    """Each function of a source: from its attributes to the brace under its `fn`, or, where it has no body, to the semicolon
    behind its clauses."""
    owner, begin, now, at, found = "", None, None, 0, []
    for line in source.split("\n"):
        head, end, text = FUNCTION.match(line), at + len(line) + 1, line.strip()
        if OWNER.match(line):
            owner = line
        if now is None and (not text or text == "}" or text.startswith("//")):
            begin = None
        elif now is None and begin is None:
            begin = at
        if head and now is None:
            is_method = bool(head["indent"])
            name = f"{owner_of(owner)}::{head['name']}" if is_method else head["name"]
            is_of_trait = is_method and is_open(owner)
            now = Function(name, head["seen"] == "pub " or is_of_trait, is_of_trait, begin, at)
            brace = head["indent"] + "}"
        if now is not None:
            if now.body is None and line.endswith(("{", "{}", ";")):
                now.body = at + len(line.rstrip("{};"))
            if line == brace or line.endswith(("{}", ";")) and now.body >= at:
                now.end = end
                found.append(now)
                now = begin = None
        at = end
    return found


def place_of(name, source):
    """The one function of a source whose name is the end of this one; None if there is none, or more."""
    tail = name.split("::")
    found = [it for it in functions(source) if tail[-len(it.name.split("::")) :] == it.name.split("::")]
    return found[0] if len(found) == 1 else None


def name_at(source, offset):
    """The name of the function in which an offset stands."""
    return next((it.name for it in functions(source) if it.begin <= offset < it.end), "no function")
