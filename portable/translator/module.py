"""An LLVM module as one file of C."""
import re

from .constants import static
from .function import Function, read_head
from .layout import held, struct_name
from .text import Struct, Vector, Words, Unknown

# The functions that a module may ask for: support.h has them.
ASKED = {"rattle_alloc", "rattle_realloc", "rattle_dealloc"}
# A struct whose parts are numbers, pointers and such structs, or a vector of numbers.
FLAT = r"\{ (?:i\d+|ptr)(?:, (?:i\d+|ptr))* \}"
AGGREGATE = rf"\{{ (?:i\d+|ptr|{FLAT})(?:, (?:i\d+|ptr|{FLAT}))* \}}|<\d+ x i\d+>"
NAME = r'@(?:"[^"]*"|[\w.$-]+)'


def sections(lines):
    """The lines of the statics, of the declarations, and of each function."""
    statics, declared, functions = [], [], []
    body = None
    for line in lines:
        if line.startswith("define"):
            body = []
        if body is not None:
            body.append(line)
            if line == "}":
                functions.append(body)
                body = None
        elif line.startswith("@"):
            statics.append(line)
        elif line.startswith("declare") and "@llvm." not in line:
            declared.append(line)
    return statics, declared, functions


def names_of(statics, declared, functions):
    """The C name of each static and function."""
    names = {re.match(NAME, line)[0]: f"S{number}" for number, line in enumerate(statics)}
    for number, body in enumerate(functions):
        name = re.search(NAME + r"(?=\()", body[0])[0]
        names[name] = name[1:] if name.startswith("@p11_") else f"f{number}"
    for line in declared:
        name = read_head(line, "declare")[1]
        if name[1:] not in ASKED:
            raise Unknown(f"the module asks for {name}")
        names[name] = name[1:]
    return names


def structs_in(types):
    """Structs that values are held in, each behind those in it."""
    found = {}
    for type_ in types:
        if isinstance(type_, Struct) and not type_.is_packed:
            found.update(structs_in(type_.parts))
            found[struct_name(type_)] = type_
    return found


def types_in(functions):
    """The types of all results and values that are structs or vectors."""
    for body in functions:
        for line in body:
            for match in re.finditer(AGGREGATE, line):
                yield Words(match[0]).type()


def translate(text, support):
    """The file of C, of a module's text and of the text of what it stands on."""
    statics, declared, bodies = sections(text.split("\n"))
    names = names_of(statics, declared, bodies)
    types = list(dict.fromkeys(types_in(bodies)))
    out = [support]
    for name, type_ in structs_in([t for t in types if isinstance(t, Struct) and t.parts]).items():
        out.append(f"struct {name} {{" + "".join(f"{held(part)} m{number};" for number, part in enumerate(type_.parts)) + "};")
    if "s_64_64" in structs_in(t for t in types if isinstance(t, Struct)):
        out.append("HEAP(struct s_64_64)")
    out += [f"VECTOR({count})" for count in sorted({t.count for t in types if isinstance(t, Vector) and t.of.bits in (1, 8)})]
    functions = [Function(body, names) for body in bodies]
    values = []
    for line in statics:
        name = re.match(NAME, line)[0]
        words = Words(line[len(name):])
        words.need("=")
        words.skip("private", "unnamed_addr", "local_unnamed_addr", "constant", "internal", "global", "dso_local")
        declaration, value = static(names[name], words, names)
        out.append(declaration + ";")
        values.append(f"static const struct T{names[name]} {names[name]} ALIGNED(16)={value};")
    out += [function.head() + ";" for function in functions] + values + [function.translate() for function in functions]
    return "\n".join(out) + "\n"
