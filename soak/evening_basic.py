"""A model of the BASIC of examples/evening by the rules of its BASIC.md, and random lines for it.

A line is made as a tree, from which come both its text and, by the model, what it types. Trees are tuples: a number
or its name first, as ("number", 5) or ("+", left, right).
"""
import random

LEVELS = {"OR": 1, "AND": 2, "NOT": 3, "<": 4, ">": 4, "=": 4, "<=": 4, ">=": 4, "<>": 4, "+": 5, "-": 5, "*": 6, "/": 6,
          "MOD": 6, "minus": 7}
COMPARED = {"<": lambda a, b: a < b, ">": lambda a, b: a > b, "=": lambda a, b: a == b, "<=": lambda a, b: a <= b,
            ">=": lambda a, b: a >= b, "<>": lambda a, b: a != b}
FAULTS = {
    "large": ("The number is too large", "Numbers go from -32767 to 32767"),
    "zero": ("A number can't be divided by 0", "Test it first: IF B<>0 THEN PRINT A/B"),
    "index": ("The index is outside of the array", "Write an index from 0 to the one that DIM has"),
    "dim": ("This array has no DIM", "Write DIM A(10) first, which has the elements A(0) to A(10)"),
    "again": ("This array has its DIM already", "Write each DIM once, at the program's beginning"),
    "long": ("The string is too long", "A string has up to 255 characters"),
    "pool": ("The strings are too long", "A string has up to 255 characters"),
    "rnd": ("RND wants 1 or more", "Write RND(6) for 1 to 6"),
    "count": ("A count of characters is too small", "Places in a string begin at 1: MID$(A$,1,2)"),
    "line": ("There is no line of this number", "Write one that LIST shows: GOTO 10"),
    "data": ("There is no DATA any more", "Write more DATA, or RESTORE to begin anew"),
    "step": ("A STEP of 0 never ends", "Write STEP 1 or STEP -1"),
    "return": ("RETURN comes without a GOSUB", "Write END in front of the subroutine"),
}
POOL = 1023


class Fault(Exception):
    """A fault of the program, by its name in FAULTS."""


def level(tree):
    return LEVELS.get(tree[0], 8)


def inside(tree, least):
    """The text of a part, in brackets where its level wants them. A comparison of strings stands alone."""
    text = written(tree)
    compared_strings = tree[0] in COMPARED and is_string(tree[1])
    return f"({text})" if level(tree) < least or compared_strings and least >= 4 else text


def is_string(tree):
    return tree[0].endswith("$")


def written(tree):
    """A tree as BASIC has it."""
    kind, *parts = tree
    if kind == "number":
        return str(parts[0])
    if kind == "quoted$":
        return f'"{parts[0]}"'
    if kind in ("name", "name$"):
        return parts[0]
    if kind in ("element", "element$"):
        return f"{parts[0]}({','.join(written(part) for part in parts[1:])})"
    if kind == "minus":
        return "-" + inside(parts[0], 7)
    if kind == "NOT":
        return "NOT " + inside(parts[0], 3)
    if kind == "join$":
        return "+".join(written(part) for part in parts)
    if kind in LEVELS:
        sign = f" {kind} " if kind.isalpha() else kind
        if kind in COMPARED and is_string(parts[0]):
            return written(parts[0]) + sign + written(parts[1])
        return inside(parts[0], LEVELS[kind]) + sign + inside(parts[1], LEVELS[kind] + 1)
    return f"{kind}({','.join(written(part) for part in parts)})"


class Model:
    """The variables of BASIC and what it types."""

    def __init__(self):
        self.seed = 1
        self.out, self.column, self.lines, self.line = [], 0, {}, 0
        self.clear()

    def clear(self):
        self.names, self.arrays, self.data, self.used = {}, {}, 0, 0

    def type(self, text):
        for one in text:
            self.out.append("\r\n" if one == "\n" else one)
            self.column = 0 if one == "\n" else self.column + 1

    def random(self, most):
        self.seed = (self.seed * 25173 + 13849) % 65536
        return ((self.seed ^ self.seed >> 8) & 0x7fff) % most + 1

    def number(self, n):
        if not -32768 <= n <= 32767:
            raise Fault("large")
        return n

    def place(self, tree):
        """Where a variable is: a dictionary and a key."""
        kind, name, *indices = tree
        if not indices:
            return self.names, name
        found = [self.value(index) for index in indices]
        if name not in self.arrays:
            raise Fault("dim")
        lasts, elements = self.arrays[name]
        if any(not 0 <= index <= last for index, last in zip(found, lasts)):
            raise Fault("index")
        return elements, tuple(found)

    def joined(self, trees):
        """Strings joined on the pool, which has room for 1,023 characters in all."""
        before, found = self.used, ""
        for tree in trees:
            item = self.item(tree)
            found += item
            self.used = before + len(found)
            if self.used > POOL:
                raise Fault("pool")
        if len(found) > 255:
            raise Fault("long")
        return found

    def item(self, tree):
        kind, *parts = tree
        if kind == "quoted$":
            return parts[0]
        if kind in ("name$", "element$"):
            names, key = self.place(tree)
            return names.get(key, "")
        if kind == "CHR$":
            return chr(self.value(parts[0]))
        if kind == "STR$":
            return str(self.value(parts[0]))
        before = self.used
        found = self.string(parts[0])
        if kind == "MID$":
            first = self.value(parts[1])
            if first < 1:
                raise Fault("count")
            found_length = self.value(parts[2]) if len(parts) > 2 else 255
        else:
            first, found_length = 1, self.value(parts[1])
        if found_length < 0:
            raise Fault("count")
        self.used = before
        if kind == "RIGHT$":
            return found[len(found) - found_length:] if found_length < len(found) else found
        return found[first - 1:first - 1 + found_length]

    def string(self, tree):
        return self.joined(tree[1:] if tree[0] == "join$" else [tree])

    def value(self, tree):
        """What a number's tree is."""
        kind, *parts = tree
        if kind == "number":
            return parts[0]
        if kind in ("name", "element"):
            names, key = self.place(tree)
            return names.get(key, 0)
        if kind in COMPARED and is_string(parts[0]):
            before = self.used
            one, other = self.string(parts[0]), self.string(parts[1])
            self.used = before
            return -1 if COMPARED[kind](one, other) else 0
        if kind in ("LEN", "ASC", "VAL"):
            before = self.used
            text = self.string(parts[0])
            self.used = before
            if kind == "LEN":
                return len(text)
            return (ord(text[0]) if text else 0) if kind == "ASC" else self.said(text)
        found = [self.value(part) for part in parts]
        return self.number(self.worked(kind, *found))

    def said(self, text):
        """The number at the front of a text, or 0."""
        text = text.lstrip(" ")
        digits = text[text[:1] in ("-", "+"):]
        count = next((at for at, one in enumerate(digits) if not "0" <= one <= "9"), len(digits))
        n = int(digits[:count] or "0") * (-1 if text[:1] == "-" else 1)
        return n if -32768 <= n <= 32767 else 0

    def worked(self, kind, a, b=None):
        if kind == "minus":
            return -a
        if kind == "NOT":
            return ~a
        if kind == "ABS":
            return abs(a)
        if kind == "SGN":
            return (a > 0) - (a < 0)
        if kind == "RND":
            if a < 1:
                raise Fault("rnd")
            return self.random(a)
        if kind in ("/", "MOD"):
            if b == 0:
                raise Fault("zero")
            quotient = abs(a) // abs(b) * (1 if (a < 0) == (b < 0) else -1)
            return quotient if kind == "/" else a - quotient * b
        if kind in COMPARED:
            return -1 if COMPARED[kind](a, b) else 0
        return {"+": a + b, "-": a - b, "*": a * b, "AND": a & b, "OR": a | b}[kind]

    def tell(self, fault):
        what, instead = FAULTS[str(fault)]
        if self.column:
            self.type("\n")
        self.type(f"? {what}{f' in line {self.line}' if self.line else ''}.\n  {instead}.\n")

    def print(self, items):
        """Items are trees, and the signs ; and , as they are."""
        stays = False
        for item in items:
            self.used = 0
            stays = item in (";", ",")
            if item == ",":
                self.type("\n" if self.column >= 56 else " " * (14 - self.column % 14))
            elif item == ";":
                continue
            elif is_string(item):
                self.type(self.string(item))
            else:
                n = self.value(item)
                self.type(f"{'' if n < 0 else ' '}{n} ")
        if not stays:
            self.type("\n")

    def answer(self, action):
        """What is typed behind a line, up to the prompt."""
        self.out, self.column, self.line = [], 0, 0
        try:
            action()
        except Fault as fault:
            self.tell(fault)
        if self.column:
            self.type("\n")
        return "".join(self.out)

    def assign(self, variable, tree):
        names, key = self.place(variable)
        names[key] = self.string(tree) if is_string(variable) else self.value(tree)

    def dim(self, name, lasts):
        if name in self.arrays:
            raise Fault("again")
        self.arrays[name] = lasts, {}

    def do(self, statement):
        """Does a statement of a line; trees: what it is and its parts."""
        kind, *parts = statement
        self.used = 0
        if kind == "print":
            self.print(parts)
        elif kind == "let":
            self.assign(*parts)
        elif kind == "dim":
            self.dim(*parts)
        elif kind == "seed":
            self.seed = parts[0]
        elif kind == "if":
            for one in parts[1] if self.value(parts[0]) else parts[2]:
                self.do(one)
        elif kind == "for":
            self.loop(*parts)

    def loop(self, variable, first, last, step, body):
        begin, end = self.value(first), self.value(last)
        by = self.value(step) if step else 1
        if by == 0:
            raise Fault("step")
        n = begin
        self.names[variable] = n
        while n <= end if by > 0 else n >= end:
            for one in body:
                self.do(one)
            n = self.names.get(variable, 0) + by
            if -32768 <= n <= 32767:
                self.names[variable] = n


def statement_text(statement):
    kind, *parts = statement
    if kind == "print":
        return "PRINT " + "".join(part if part in (";", ",") else written(part) for part in parts)
    if kind == "let":
        return f"{written(parts[0])}={written(parts[1])}"
    if kind == "dim":
        return f"DIM {parts[0]}({','.join(map(str, parts[1]))})"
    if kind == "seed":
        return f"RANDOMIZE {parts[0]}"
    if kind == "if":
        other = " ELSE " + line_text(parts[2]) if parts[2] else ""
        return f"IF {written(parts[0])} THEN {line_text(parts[1])}{other}"
    variable, first, last, step, body = parts
    by = f" STEP {written(step)}" if step else ""
    return f"FOR {variable}={written(first)} TO {written(last)}{by}:{line_text(body)}:NEXT {variable}"


def line_text(statements):
    return ":".join(map(statement_text, statements))


class Lines:
    """Random statements."""

    ARRAYS = {"A": (5,), "B": (3, 2), "A$": (4,), "C": (0,)}

    def __init__(self, seed):
        self.pick = random.Random(seed)

    def number(self, depth):
        pick = self.pick.random()
        if depth == 0 or pick < 0.3:
            kind = self.pick.randrange(4)
            if kind == 0:
                return "name", self.pick.choice(["A", "B", "C1", "Z9", "I"])
            return "number", self.pick.choice([0, 1, 2, 3, 7, 10, 100, 181, 182, 1000, 32766, 32767])
        if pick < 0.75:
            kind = self.pick.choice(["+", "-", "*", "/", "MOD", "AND", "OR", "<", ">", "=", "<=", ">=", "<>"])
            if kind in COMPARED and self.pick.random() < 0.4:
                return kind, self.string(depth - 1), self.string(depth - 1)
            return kind, self.number(depth - 1), self.number(depth - 1)
        if pick < 0.85:
            return self.pick.choice(["minus", "NOT", "ABS", "SGN"]), self.number(depth - 1)
        if pick < 0.90:
            return "RND", self.number(depth - 1)
        if pick < 0.95:
            return self.pick.choice(["LEN", "ASC", "VAL"]), self.string(depth - 1)
        name = self.pick.choice(["A", "B", "C"])
        return ("element", name, *(self.number(depth - 1) for _ in self.ARRAYS[name]))

    def string(self, depth):
        kind = self.pick.randrange(9 if depth else 3)
        if kind < 2:
            text = "".join(self.pick.choice("abcXYZ 0123-,:'") for _ in range(self.pick.randrange(6)))
            return "quoted$", text
        if kind < 4:
            return "name$", self.pick.choice(["A$", "B$", "Q7$"])
        if kind == 4:
            return "STR$", self.number(depth - 1)
        if kind == 5:
            return "CHR$", ("number", self.pick.randrange(33, 127))
        if kind == 6:
            name = self.pick.choice(["LEFT$", "RIGHT$", "MID$"])
            return (name, self.string(depth - 1), self.number(depth - 1), *([self.number(1)] if name == "MID$" and
                    self.pick.random() < 0.7 else []))
        if kind == 7:
            parts = [self.string(depth - 1) for _ in range(self.pick.randrange(2, 4))]
            return ("join$", *(one for part in parts for one in (part[1:] if part[0] == "join$" else [part])))
        return "element$", "A$", self.number(depth - 1)

    def print(self):
        items = []
        for _ in range(self.pick.randrange(1, 4)):
            items += [self.number(3) if self.pick.random() < 0.6 else self.string(2), self.pick.choice(";,")]
        return ("print", *items[:len(items) - self.pick.randrange(2)])

    def let(self):
        if self.pick.random() < 0.4:
            return "let", self.string_variable(), self.string(3)
        if self.pick.random() < 0.3:
            return "let", ("element", "A", self.number(1)), self.number(3)
        return "let", ("name", self.pick.choice(["A", "B", "C1", "Z9"])), self.number(3)

    def string_variable(self):
        if self.pick.random() < 0.3:
            return "element$", "A$", self.number(1)
        return "name$", self.pick.choice(["A$", "B$", "Q7$"])

    def statement(self, depth=2):
        pick = self.pick.random()
        if pick < 0.5 or depth == 0:
            return self.print()
        if pick < 0.8:
            return self.let()
        if pick < 0.84:
            name = self.pick.choice(list(self.ARRAYS))
            return "dim", name, self.ARRAYS[name]
        if pick < 0.87:
            return "seed", self.pick.randrange(1000)
        if pick < 0.93:
            return "if", self.number(3), [self.statement(0)], [self.statement(0)] if self.pick.random() < 0.7 else []
        first, last = self.pick.randrange(-3, 4), self.pick.randrange(-3, 8)
        step = [None, None, ("number", 2), ("minus", ("number", 1)), ("number", 0)][self.pick.randrange(5)]
        begin, end = (("minus", ("number", -n)) if n < 0 else ("number", n) for n in (first, last))
        return "for", "I", begin, end, step, [self.statement(0)]

    def line(self):
        """A line's statements, whose text is short enough for one. An IF takes the rest of its line, so it's the last."""
        while True:
            statements = [self.statement() for _ in range(self.pick.randrange(1, 3))]
            if all(one[0] != "if" for one in statements[:-1]) and len(line_text(statements)) < 120:
                return statements
