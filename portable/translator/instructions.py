"""What each instruction of LLVM does, as statements of C."""
from .constants import nothing
from .layout import align, held, is_wide, offset, room, size, stored
from .numbers import (ARITHMETIC, CASTS, arithmetic, as_literal, cast, comparison, cut, function, literal, signed)
from .text import BIT, POINTER, Array, Int, Pointer, Struct, Unknown, Vector, Void


def in_parentheses(text):
    """A condition in just one pair of parentheses."""
    depth = 0
    for at, letter in enumerate(text):
        depth += {"(": 1, ")": -1}.get(letter, 0)
        if depth == 0:
            return text if text[0] == "(" and at + 1 == len(text) else f"({text})"
    return f"({text})"


def suffix(type_):
    """What the name of a load or a store says of the type."""
    if isinstance(type_, Pointer):
        return "p"
    return str(8 * stored(type_.bits)) if stored(type_.bits) in (1, 2, 4, 8, 16) else ""


def loaded(type_, place):
    if isinstance(type_, Vector):
        return f"ld_v{type_.count}({place})"
    if not isinstance(type_, (Int, Pointer)):
        raise Unknown(f"a load of {type_}")
    if not suffix(type_):
        return cut(type_, f"{'ldw' if is_wide(type_) else 'ldn'}({place},{stored(type_.bits)})")
    text = f"ld{suffix(type_)}({place})"
    return text if isinstance(type_, Pointer) or type_.bits in (8, 16, 32, 64, 128) else cut(type_, text)


def stores(type_, place, text):
    if isinstance(type_, Vector):
        return f"st_v{type_.count}({place},{text});"
    if not isinstance(type_, (Int, Pointer)):
        raise Unknown(f"a store of {type_}")
    if not suffix(type_):
        return f"{'stw' if is_wide(type_) else 'stn'}({place},{text},{stored(type_.bits)});"
    return f"st{suffix(type_)}({place},{text});"


class Instructions:
    """The part of a function that its instructions change."""

    def __init__(self):
        self.variables, self.declared, self.folded, self.out = {}, {}, {}, []
        self.here = self.here_name = self.following = None

    @staticmethod
    def begin_of(type_):
        return nothing(type_)

    def instruction(self, words):
        name = ""
        if words.peek(1) == "=":
            name = words.next()
            words.next()
        words.skip("tail", "notail", "musttail")
        op = words.next()
        if op in ARITHMETIC:
            self.do_arithmetic(name, op, words)
        elif op in CASTS:
            self.do_cast(name, op, words)
        elif hasattr(self, f"do_{op}"):
            getattr(self, f"do_{op}")(name, words)
        else:
            raise Unknown(f"no instruction {op!r} in: {' '.join(words.words)[:200]}")

    def do_arithmetic(self, name, op, words):
        words.skip("nuw", "nsw", "exact", "disjoint")
        type_, left = self.typed(words)
        words.need(",")
        right = self.value(words, type_)
        self.give_each(name, type_, type_, lambda element, one, other: arithmetic(op, element, one, other), left, right)

    def do_icmp(self, name, words):
        words.take("samesign")
        how = words.next()
        type_, left = self.typed(words)
        words.need(",")
        right = self.value(words, type_)
        result = Vector(type_.count, BIT) if isinstance(type_, Vector) else BIT
        self.give_each(name, type_, result, lambda element, one, other: comparison(how, element, one, other), left, right)

    def do_cast(self, name, op, words):
        words.skip("nneg", "nuw", "nsw")
        type_, text = self.typed(words)
        words.need("to")
        to = words.type()
        target = to.of if isinstance(to, Vector) else to
        self.give_each(name, type_, to, lambda element, one: cast(op, element, one, target), text)

    def give_each(self, name, type_, result, expression, *operands):
        """A value gets its name, which an expression makes of its operands; of vectors element by element."""
        if not isinstance(type_, Vector):
            self.give(name, result, expression(type_, *operands))
        elif self.uses[name]:
            if "int" not in self.declared:
                self.declared["int"] = ["i"]
            elements = expression(type_.of, *(f"{operand}.e[i]" for operand in operands))
            self.emit(f"for(i=0;i<{type_.count};i++){self.variable(name, result)}.e[i]={elements};")

    def do_bitcast(self, name, words):
        type_, text = self.typed(words)
        words.need("to")
        to = words.type()
        if not isinstance(type_, Vector) or type_.of != BIT or to != Int(type_.count):
            raise Unknown(f"a bitcast of {type_} to {to}")
        self.give(name, to, f"bits_v{type_.count}({text})", folds=False)

    def do_select(self, name, words):
        _, condition = self.typed(words)
        words.need(",")
        type_, yes = self.typed(words)
        words.need(",")
        _, no = self.typed(words)
        self.give(name, type_, f"({condition}?{yes}:{no})")

    def do_freeze(self, name, words):
        """Each variable has some value, which stays."""
        type_, text = self.typed(words)
        self.give(name, type_, text)

    def do_extractvalue(self, name, words):
        type_, text = self.typed(words)
        while words.take(","):
            number = int(words.next())
            type_, text = type_.parts[number], f"{text}.m{number}"
        self.give(name, type_, text)

    def do_insertvalue(self, name, words):
        type_, text = self.typed(words)
        words.need(",")
        _, part = self.typed(words)
        path = ""
        while words.take(","):
            path += f".m{words.next()}"
        variable = self.variable(name, type_)
        self.emit(f"{variable}={text};{variable}{path}={part};")

    def do_insertelement(self, name, words):
        type_, text = self.typed(words)
        words.need(",")
        _, part = self.typed(words)
        words.need(",")
        _, number = self.typed(words)
        variable = self.variable(name, type_)
        self.emit(f"{variable}={text};{variable}.e[{number}]={part};")

    def do_extractelement(self, name, words):
        type_, text = self.typed(words)
        words.need(",")
        _, number = self.typed(words)
        self.give(name, type_.of, f"{text}.e[{number}]")

    def do_shufflevector(self, name, words):
        """Elements of two vectors behind each other; where it doesn't matter which, the first."""
        type_, left = self.typed(words)
        words.need(",")
        _, right = self.typed(words)
        words.need(",")
        result, places = self.places(words, type_)
        variable = self.variable(name, result)
        for number, place in enumerate(places):
            self.emit(f"{variable}.e[{number}]={left if place < type_.count else right}.e[{place % type_.count}];")

    @staticmethod
    def places(words, type_):
        """What a shuffle takes: the result's type, and the number of each element."""
        mask = words.type()
        if words.take("zeroinitializer") or words.take("poison"):
            places = [0] * mask.count
        else:
            words.need("<")
            places = words.listed(">", lambda: (words.type(), words.next())[1])
        return Vector(mask.count, type_.of), [0 if place == "poison" else int(place) for place in places]

    # -- memory

    def do_alloca(self, name, words):
        type_ = words.type()
        if words.take(",") and words.peek() != "align":
            raise Unknown("an alloca of a number of elements")
        alignment = int(words.words[words.words.index("align") + 1]) if "align" in words.words else align(type_)
        if alignment > 16:
            raise Unknown(f"an alloca that is aligned to {alignment}")
        if self.uses[name]:
            self.room_on_stack(name, size(type_), alignment)

    def do_load(self, name, words):
        type_ = words.type()
        words.need(",")
        place = self.place(words)
        if isinstance(type_, Struct):
            variable = self.variable(name, type_)
            for number, part in enumerate(type_.parts):
                self.emit(f"{variable}.m{number}={loaded(part, f'{place}+{offset(type_, number)}')};")
        else:
            self.give(name, type_, loaded(type_, place), folds=False)

    def do_store(self, _, words):
        type_, text = self.typed(words)
        words.need(",")
        place = self.place(words)
        if isinstance(type_, Struct):
            for number, part in enumerate(type_.parts):
                self.emit(stores(part, f"{place}+{offset(type_, number)}", f"{text}.m{number}"))
        else:
            self.emit(stores(type_, place, text))

    def do_getelementptr(self, name, words):
        flags = words.skip("inbounds", "nuw", "nusw")
        of = words.type()
        words.need(",")
        _, text = self.typed(words)
        is_first = True
        while words.take(","):
            type_, number = self.typed(words)
            if is_first:
                step = size(of)
            elif isinstance(of, Array):
                of = of.of
                step = size(of)
            else:
                place = as_literal(number)
                number, type_, step, of = str(offset(of, place)), Int(64), 1, of.parts[place]
            is_first = False
            text = self.moved(text, type_, number, step, "inbounds" in flags)
        self.give(name, POINTER, text)

    @staticmethod
    def moved(base, type_, number, step, is_inside):
        """An address so many steps further. One that may lie outside of what it begins at is a number meanwhile."""
        if as_literal(number) == 0:
            return base
        whole = as_literal(number)
        if whole is not None and step * whole < 1 << 31:
            count = str(step * whole)
        else:
            count = f"{signed(type_, number)}" if type_ != Int(64) else number
            count = f"(s64)({count})" if step == 1 else f"(s64)((u64)({count})*{step})"
        return f"({base}+{count})" if is_inside else f"(P)((uintptr_t){base}+(uintptr_t)({count}))"

    # -- calls, and what ends a block

    def do_call(self, name, words):
        words.attributes()
        result = words.type()
        called = words.next()
        if called == "@llvm.assume":
            return
        if not called.startswith("@"):
            raise Unknown(f"a call through a pointer: {' '.join(words.words)[:200]}")
        words.need("(")
        given = words.listed(")", lambda: self.typed(words))
        if called.startswith("@llvm."):
            text = self.intrinsic(called[len("@llvm."):], result, [text for _, text in given])
        else:
            text = f"{self.names[called]}({','.join(text for _, text in given)})"
        if name and self.uses[name]:
            self.emit(f"{self.variable(name, result)}={text};")
        elif text:
            self.emit(text + ";")

    @staticmethod
    def intrinsic(name, result, given):
        if name.startswith(("lifetime.", "experimental.noalias.")):
            return ""
        if name == "trap":
            return "TRAP()"
        if name.startswith(("memset.", "memcpy.", "memmove.")):
            return f"{name.split('.')[0]}({given[0]},{given[1]},(size_t){given[2]})"
        return function(name.rsplit(".", 1)[0], result, given)

    def do_ret(self, _, words):
        type_ = words.type()
        self.emit("return;" if isinstance(type_, Void) else f"return {self.value(words, type_)};")

    def do_unreachable(self, _, words):
        del words
        self.emit("UNREACHABLE();")

    def do_br(self, _, words):
        if words.take("label"):
            self.emit(self.edge(words.next(), self.following))
            return
        _, condition = self.typed(words)
        words.need(",")
        words.need("label")
        yes = words.next()
        words.need(",")
        words.need("label")
        no = words.next()
        if self.blocks[no].is_trap() or self.blocks[yes] is self.following:
            self.emit(f"if(!{in_parentheses(condition)}){{{self.edge(no, None)}}}")
            self.emit(self.edge(yes, self.following))
        else:
            self.emit(f"if{in_parentheses(condition)}{{{self.edge(yes, None)}}}")
            self.emit(self.edge(no, self.following))

    def do_switch(self, _, words):
        _, text = self.typed(words)
        words.need(",")
        words.need("label")
        otherwise = words.next()
        words.need("[")
        cases = {}
        while not words.take("]"):
            type_ = words.type()
            number = words.next()
            words.need(",")
            words.need("label")
            number = {"true": 1, "false": 0}.get(number, number)
            if is_wide(type_):
                raise Unknown(f"a switch over {type_.bits} bits")
            cases.setdefault(words.next(), []).append(literal(int(number), type_))
        self.emit(f"switch({text}){{")
        for to, numbers in cases.items():
            self.emit("".join(f"case {number}:" for number in numbers) + self.edge(to, None))
        self.emit(f"default:{self.edge(otherwise, None)}}}")


__all__ = ["Instructions", "held", "room"]
