"""A function of an LLVM module as one of C: each value a variable, or folded into its one use in the same block; each block a label;
a phi a variable that each edge to its block sets, all of a block's at once."""
import re
from collections import Counter
from dataclasses import dataclass, field

from .constants import constant, words_of
from .instructions import Instructions
from .layout import held
from .text import POINTER, Int, Unknown, Words

# The longest expression that is folded into its use.
LONGEST_FOLDED = 160
# An address that is a constant number of bytes behind another one.
FIELD = re.compile(r'(?P<name>%\S+) = getelementptr (?P<inside>inbounds )?(?:nusw )?(?:nuw )?i8 , ptr (?P<base>%\S+) , i64 (?P<count>-?\d+)')


@dataclass
class Phi:
    name: str
    type: object
    incoming: dict


@dataclass
class Block:
    label: str
    phis: list = field(default_factory=list)
    code: list = field(default_factory=list)
    is_target: bool = False

    def is_trap(self):
        """Whether all that it does is to end the program."""
        return not self.phis and bool(self.code) and self.code[-1].peek() == "unreachable" and all(
            words.peek() == "unreachable" or "@llvm.trap" in words.words for words in self.code)

    def end(self):
        """What it does instead of all that a trap does."""
        return "TRAP();" if any("@llvm.trap" in words.words for words in self.code) else "UNREACHABLE();"


def arguments(words):
    """The types and names of a function's arguments."""
    def argument():
        type_ = words.type()
        words.attributes()
        return type_, words.next() if words.peek().startswith("%") else ""

    words.need("(")
    return words.listed(")", argument)


def read_head(line, verb):
    """The result's type, the name, and the arguments of a definition or a declaration."""
    words = Words(line)
    words.need(verb)
    words.attributes()
    result = words.type()
    return result, words.next(), arguments(words)


def incoming_values(words):
    """What a phi is, by the block that one comes from: the words of the value."""
    found = {}
    while True:
        words.need("[")
        value = []
        while words.peek() != ",":
            value += words.group() if words.peek() in ("(", "{", "<", "<{", "[") else [words.next()]
        words.need(",")
        found[words.next()] = value
        words.need("]")
        if not words.take(","):
            return found


def logical_lines(lines):
    """Instructions, a line each: a switch has many."""
    joined = ""
    for line in lines:
        line = re.sub(r"(, ![\w.]+ !\d+)+$", "", line.strip())
        if not line or line.startswith(";"):
            continue
        joined = f"{joined} {line}".strip()
        if not joined.startswith("switch") or joined.endswith("]"):
            yield joined
            joined = ""


class Function(Instructions):
    def __init__(self, lines, names):
        """Reads a definition's lines; names has the C name of each function and static."""
        super().__init__()
        self.names = names
        self.result, self.name, self.args = read_head(lines[0], "define")
        for number, (type_, name) in enumerate(self.args):
            # Without a name an argument has its number as one.
            self.variables[name or f"%{number}"] = f"a{number}"
        self.blocks = {}
        self.read_blocks(lines[1:-1])
        self.order = list(self.blocks.values())
        self.find_fields()
        self.count_uses()

    def read_blocks(self, lines):
        label, block_lines = None, []
        for line in [*lines, "end:"]:
            match = re.match(r'(?:("[^"]*")|([\w.$-]+)):', line)
            if not match:
                block_lines.append(line)
                continue
            if block_lines or self.blocks:
                self.add_block(label or f"%{sum(not name or name[1:].isdigit() for _, name in self.args)}", block_lines)
            label, block_lines = "%" + (match[1] or match[2]), []

    def add_block(self, label, lines):
        block = self.blocks[label] = Block(f"L{len(self.blocks)}")
        for line in logical_lines(lines):
            words = Words(line)
            if words.peek(2) == "phi":
                name = words.next()
                words.next()
                words.next()
                block.phis.append(Phi(name, words.type(), incoming_values(words)))
            else:
                block.code.append(words)

    def find_fields(self):
        """The values that are an address a constant number of bytes behind another one: each is written out wherever it is used, as a
        compiler finds the place of a field cheapest. Held in variables, hundreds of them are kept on the stack."""
        self.fields = {}
        for block in self.order:
            for words in block.code:
                match = FIELD.fullmatch(" ".join(words.words))
                if match:
                    self.fields[match["name"]] = match["base"], bool(match["inside"]), int(match["count"])

    def count_uses(self):
        """How often each value is used, and in which block, if it is one: a phi uses it in none. What is assumed isn't used."""
        self.uses, self.used_in = Counter(), {}
        for block in self.order:
            for words in block.code:
                if "@llvm.assume" in words.words or words.peek() in self.fields and words.peek(1) == "=":
                    continue
                for word in words.words[1:] if words.peek(1) == "=" else words.words:
                    self.note_use(word, block)
            for phi in block.phis:
                for value in phi.incoming.values():
                    for word in value:
                        self.note_use(word, None)

    def note_use(self, word, block):
        while word in self.fields:
            word = self.fields[word][0]
        if word.startswith("%"):
            self.uses[word] += 1
            self.used_in.setdefault(word, set()).add(block.label if block else None)

    # -- values

    def variable(self, name, type_, begin=""):
        if name not in self.variables:
            self.variables[name] = f"v{len(self.variables)}"
            self.declared.setdefault(held(type_), []).append(self.variables[name] + begin)
        return self.variables[name]

    def value(self, words, type_):
        words.attributes()
        word = words.peek()
        if not word.startswith("%"):
            return constant(words, type_, self.names)
        words.next()
        return self.named(word, type_)

    def named(self, name, type_):
        """The text of a value that has a name."""
        if name in self.fields:
            base, is_inside, count = self.fields[name]
            return self.moved(self.named(base, type_), Int(64), str(count), 1, is_inside)
        return self.folded[name] if name in self.folded else self.variable(name, type_)

    def place(self, words):
        """The text of the address of a load or a store. Something lies there, so it is inside of what it begins at."""
        words.attributes()
        words.need("ptr")
        words.attributes()
        name, count = words.peek(), 0
        if name not in self.fields:
            return self.value(words, POINTER)
        words.next()
        while name in self.fields:
            name, count = self.fields[name][0], count + self.fields[name][2]
        return f"({self.named(name, POINTER)}{count:+})"

    def typed(self, words):
        """The type and the text of an operand."""
        words.attributes()
        type_ = words.type()
        return type_, self.value(words, type_)

    def is_folded(self, name, text):
        return self.uses[name] == 1 and self.used_in[name] == {self.here.label} and len(text) < LONGEST_FOLDED

    def give(self, name, type_, text, folds=True):
        """A value gets its name: in a variable, or where it is used."""
        if self.uses[name] == 0 or name in self.fields:
            return
        if folds and self.is_folded(name, text):
            self.folded[name] = text
        else:
            self.emit(f"{self.variable(name, type_)}={text};")

    def room_on_stack(self, name, bytes_, alignment):
        """An array of the function's, whose address the name is."""
        unit, count = ("A16", words_of(bytes_, 16)) if alignment > 8 else ("u64", words_of(bytes_, 8))
        array = f"k{len(self.variables)}"
        self.declared.setdefault(unit, []).append(f"{array}[{count}]")
        self.variables[name] = f"(P){array}"

    def emit(self, text):
        self.out.append(text)

    # -- edges

    def copies(self, block):
        """What sets the phis of a block that one comes to from here: pairs of a variable and its value."""
        found = []
        for phi in block.phis:
            value = phi.incoming[self.here_name]
            if value[0] not in ("poison", "undef"):
                text, to = self.value(Words(value), phi.type), self.phi_variable(phi)
                if text != to:
                    found.append((to, text, held(phi.type)))
        return found

    def phi_variable(self, phi):
        """Where a phi is anything on some edge, it is what it was: so that is to be some value."""
        is_anything = any(value[0] in ("poison", "undef") for value in phi.incoming.values())
        begin = {"P": "=(P)0"}.get(held(phi.type), "=" + self.begin_of(phi.type)) if is_anything else ""
        return self.variable(phi.name, phi.type, begin)

    def edge(self, name, following):
        """Goes to a block: sets its phis, and jumps unless it follows."""
        block = self.blocks[name]
        if block.is_trap():
            return block.end()
        copies = self.copies(block)
        text = "".join(f"{to}={value};" for to, value, _ in copies)
        if self.is_torn(copies):
            text = "{" + "".join(f"{kind} t{number}={value};" for number, (_, value, kind) in enumerate(copies)) + "".join(
                f"{to}=t{number};" for number, (to, _, _) in enumerate(copies)) + "}"
        if block is following:
            return text
        block.is_target = True
        return f"{text}goto {block.label};"

    @staticmethod
    def is_torn(copies):
        """Whether one of these copies, done in turn, would take what an earlier one has set."""
        done = set()
        for to, value, _ in copies:
            if done & set(re.findall(r"\bv\d+\b", value)):
                return True
            done.add(to)
        return False

    # -- the whole

    def head(self):
        kind = "" if self.names[self.name].startswith("p11_") else "static "
        given = ",".join(f"{held(type_)} a{number}" for number, (type_, _) in enumerate(self.args))
        return f"{kind}{held(self.result)} {self.names[self.name]}({given or 'void'})"

    def translate(self):
        """The text of the function."""
        bodies = []
        shown = [block for number, block in enumerate(self.order) if number == 0 or not block.is_trap()]
        names = {block.label: name for name, block in self.blocks.items()}
        for block, following in zip(shown, [*shown[1:], None]):
            self.here, self.here_name, self.following, self.out = block, names[block.label], following, []
            for words in block.code:
                self.instruction(words)
            bodies.append((block, self.out))
        text = [f"/* {readable(self.name)} */", self.head(), "{"]
        text += [f"{kind} {','.join(variables)};" for kind, variables in self.declared.items()]
        for block, out in bodies:
            text += [f"{block.label}:;"] * block.is_target + [line for line in out if line]
        return "\n".join([*text, "}"])


def readable(name):
    """A function's name without what tells its instance, fit for a comment."""
    return re.sub(r"::<#[0-9a-f]+>", "", name.strip('@"')).replace("*/", "").replace("/*", "")


__all__ = ["Function", "read_head", "Unknown"]
