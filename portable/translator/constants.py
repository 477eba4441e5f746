"""Constants of an LLVM module as C, and its static data."""
import re

from .layout import align, held, offset, rounded, size
from .numbers import cut, literal
from .text import POINTER, Array, Int, Pointer, Struct, Unknown, Vector


def constant(words, type_, names):
    """A constant of this type: its expression of C. What has no known value is 0."""
    word = words.next()
    if re.fullmatch(r"-?\d+", word):
        return literal(int(word), type_)
    if word == "true":
        return "1"
    if word in ("false", "null", "poison", "undef", "zeroinitializer"):
        return nothing(type_)
    if word.startswith("@"):
        return f"(P)&{names[word]}"
    if word == "getelementptr":
        return element(words, names)
    if word in ("ptrtoint", "ptrtoaddr", "inttoptr"):
        words.need("(")
        value = constant(words, words.type(), names)
        words.need("to")
        words.type()
        words.need(")")
        return f"(P)(uintptr_t)({value})" if word == "inttoptr" else f"((u64)(uintptr_t)({value}))"
    if word in ("add", "sub", "xor"):
        words.skip("nuw", "nsw")
        words.need("(")
        left, right = words.listed(")", lambda: constant(words, words.type(), names))
        return cut(type_, f"{left}{ {'add': '+', 'sub': '-', 'xor': '^'}[word]}{right}")
    if word in ("{", "<"):
        parts = words.listed("}" if word == "{" else ">", lambda: constant(words, words.type(), names))
        inner = ",".join(parts)
        return f"({held(type_)}){{{inner}}}" if word == "{" else f"({held(type_)}){{{{{inner}}}}}"
    raise Unknown(f"no constant {word!r} in: {' '.join(words.words)[:200]}")


def nothing(type_):
    if isinstance(type_, Vector):
        return f"({held(type_)}){{{{0}}}}"
    if isinstance(type_, Struct):
        return f"({held(type_)}){{{','.join(map(nothing, type_.parts))}}}"
    return "(P)0" if isinstance(type_, Pointer) else literal(0, type_)


def element(words, names):
    """An address that is made of a static's and a constant number of bytes."""
    words.skip("inbounds", "nuw", "nusw")
    words.need("(")
    of = words.type()
    words.need(",")
    words.type()
    base = constant(words, POINTER, names)
    at = inner = None
    while words.take(","):
        words.type()
        number = int(words.next())
        if inner is None:
            at, inner = number * size(of), of
        elif isinstance(inner, Array):
            at, inner = at + number * size(inner.of), inner.of
        else:
            at, inner = at + offset(inner, number), inner.parts[number]
    words.need(")")
    return f"({base}+{at})" if at else base


def data_bytes(word):
    """The bytes of a text c".." of LLVM's."""
    return [int(match[1], 16) if match[1] else ord(match[0])
            for match in re.finditer(r"\\([0-9A-Fa-f]{2})|[^\\]", word[2:-1])]


def static(name, words, names):
    """A static, as the text of its type and the text of its value."""
    type_ = words.type()
    fields = list(parts(words, type_, names, 0))
    members = "".join(declared % f"m{number}" for number, (declared, _) in enumerate(fields)) or "u8 m0;"
    values = ",".join(value for _, value in fields) or "0"
    return f"static const struct T{name} {{{members}}} {name}", f"{{{values}}}"


def parts(words, type_, names, at):
    """The parts of a static from its byte `at` on: how each is declared, and its value. In C each lies where LLVM has it, since
    each begins at a multiple of its own alignment."""
    if at % align(type_):
        raise Unknown(f"a static has a part {type_} at byte {at}")
    if isinstance(type_, Pointer):
        yield "SLOT(%s)", f"SLOT_OF({constant(words, type_, names)})"
    elif isinstance(type_, Int):
        yield held(type_) + " %s;", constant(words, type_, names)
    elif isinstance(type_, Array):
        yield from row(words, type_, names, at)
    elif isinstance(type_, Struct):
        words.need("<{" if type_.is_packed else "{")
        begin = at
        for number, part in enumerate(type_.parts):
            if begin + offset(type_, number) != at:
                raise Unknown("a static has a gap")
            words.type()
            yield from parts(words, part, names, at)
            words.take(",")
            at += size(part)
        words.need("}>" if type_.is_packed else "}")
        if begin + size(type_) != at:
            raise Unknown("a static has a gap")
    else:
        raise Unknown(f"a static of type {type_}")


def row(words, type_, names, at):
    """An array as a part of a static; one of 0 elements is none."""
    if words.take("zeroinitializer"):
        if type_.count:
            yield f"u8 %s[{size(type_)}];", "{0}"
    elif words.peek().startswith('c"'):
        held_bytes = data_bytes(words.next())
        if held_bytes:
            yield f"u8 %s[{len(held_bytes)}];", "{" + ",".join(map(str, held_bytes)) + "}"
    else:
        words.need("[")
        found = []
        for number in range(type_.count):
            words.type()
            found += parts(words, type_.of, names, at + number * size(type_.of))
            words.take(",")
        words.need("]")
        if isinstance(type_.of, Int):
            yield f"{held(type_.of)} %s[{type_.count}];", "{" + ",".join(value for _, value in found) + "}"
        else:
            yield from found


def words_of(bytes_, unit):
    """How many units have room for so many bytes: one at least."""
    return max(1, rounded(bytes_, unit) // unit)
