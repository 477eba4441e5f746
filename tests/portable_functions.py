"""Random functions of LLVM's text, and whether the C that portable/translate makes of them does what clang makes of the same text.

Each function has a number and a row of bytes, and makes of them another number and row: by every width from 1 to 128 bits, arithmetic,
shifts, casts, comparisons, loads and stores at any byte, structs, vectors of 16 bytes, branches, switches and loops whose phis take one
another's values. No function does what LLVM leaves undefined."""
import random

MEMORY = 64
WIDTHS = (1, 1, 2, 3, 7, 8, 8, 9, 12, 15, 16, 16, 17, 23, 24, 25, 31, 32, 32, 33, 40, 48, 56, 63, 64, 64, 64, 65, 72, 96, 100, 120, 127, 128)
WHOLE = (8, 16, 32, 64)
COMPARISONS = ("eq", "ne", "ult", "ule", "ugt", "uge", "slt", "sle", "sgt", "sge")


class Maker:
    """Makes the text of one function."""

    def __init__(self, number, has_vectors):
        self.number, self.random, self.has_vectors = number, random.Random(number), has_vectors
        self.lines, self.values, self.names = [], [("%a", 64)], 0

    def new(self, text, bits=None):
        """A further value, by what makes it; with its bits others may use it."""
        self.names += 1
        name = f"%v{self.names}"
        self.lines.append(f"  {name} = {text}")
        if bits:
            self.values.append((name, bits))
        return name

    def value(self, bits):
        """A value of so many bits: one that is there, as it is or cut or widened, or a constant."""
        if self.random.random() < 0.2:
            return str(self.random.choice((0, 1, -1, self.random.getrandbits(bits), 1 << bits - 1)))
        name, has = self.random.choice(self.values[-12:])
        if has == bits:
            return name
        op = "trunc" if has > bits else self.random.choice(("zext", "sext"))
        return self.new(f"{op} i{has} {name} to i{bits}", bits)

    def width(self, widths=WIDTHS):
        return self.random.choice(widths)

    def arithmetic(self):
        bits = self.width()
        op = self.random.choice(("add", "sub", "mul", "and", "or", "xor"))
        self.new(f"{op} i{bits} {self.value(bits)}, {self.value(bits)}", bits)

    def division(self):
        bits = self.width([width for width in WIDTHS if 1 < width <= 64])
        op = self.random.choice(("udiv", "urem", "sdiv", "srem"))
        positive = self.new(f"and i{bits} {self.value(bits)}, {(1 << bits - 1) - 1}")
        other = self.new(f"or i{bits} {positive}, 1")
        self.new(f"{op} i{bits} {self.value(bits)}, {other}", bits)

    def shift(self):
        bits = self.width()
        if bits == 1:
            return
        count = self.value(bits) if self.random.random() < 0.6 else str(self.random.randrange(bits))
        if count.startswith("%") or not 0 <= int(count) < bits:
            count = self.new(f"and i{bits} {count}, {(1 << (bits - 1).bit_length() - 1) - 1}")
        self.new(f"{self.random.choice(('shl', 'lshr', 'ashr'))} i{bits} {self.value(bits)}, {count}", bits)

    def comparison(self):
        bits = self.width()
        self.new(f"icmp {self.random.choice(COMPARISONS)} i{bits} {self.value(bits)}, {self.value(bits)}", 1)

    def choice(self):
        bits = self.width()
        self.new(f"select i1 {self.value(1)}, i{bits} {self.value(bits)}, i{bits} {self.value(bits)}", bits)

    def function(self):
        bits = self.width(WHOLE)
        name = self.random.choice(("umin", "umax", "smin", "smax", "usub.sat", "uadd.sat", "fshl", "fshr", "ctpop", "cttz", "ctlz", "bswap", "abs"))
        if name == "bswap" and bits == 8:
            return
        count = 3 if name in ("fshl", "fshr") else 1 if name in ("ctpop", "cttz", "ctlz", "bswap", "abs") else 2
        given = [f"i{bits} {self.value(bits)}" for _ in range(count)] + ["i1 false"] * (name in ("cttz", "ctlz", "abs"))
        self.new(f"call i{bits} @llvm.{name}.i{bits}({', '.join(given)})", bits)

    def place(self, size):
        """An address in the row with so many bytes behind it."""
        if self.random.random() < 0.5:
            return self.new(f"getelementptr inbounds i8, ptr %m, i64 {self.random.randrange(MEMORY - size)}")
        step = self.new(f"and i64 {self.value(64)}, 31")
        return self.new(f"getelementptr inbounds i8, ptr %m, i64 {step}")

    def memory(self):
        bits = self.width()
        place = self.place(-(-bits // 8))
        self.lines.append(f"  store i{bits} {self.value(bits)}, ptr {place}, align 1")
        # What the bits above a width's own are in memory isn't told, so only a whole number of bytes is loaded from just anywhere.
        other = self.width([width for width in WIDTHS if width % 8 == 0])
        self.new(f"load i{other}, ptr {self.place(other // 8)}, align 1", other)
        self.new(f"load i{bits}, ptr {place}, align 1", bits)

    def stack(self):
        bits = self.width()
        own = self.new(f"alloca i{bits}, align 16")
        self.lines.append(f"  store i{bits} {self.value(bits)}, ptr {own}, align 16")
        self.new(f"load i{bits}, ptr {own}, align 16", bits)

    def struct(self):
        one, other = self.width(WHOLE), self.width()
        type_ = f"{{ i{one}, i{other} }}"
        first = self.new(f"insertvalue {type_} poison, i{one} {self.value(one)}, 0")
        whole = self.new(f"insertvalue {type_} {first}, i{other} {self.value(other)}, 1")
        chosen = self.new(f"select i1 {self.value(1)}, {type_} {whole}, {type_} {{ i{one} 5, i{other} 1 }}")
        number = self.random.randrange(2)
        self.new(f"extractvalue {type_} {chosen}, {number}", (one, other)[number])

    def vector(self):
        one, other = (self.new(f"load <16 x i8>, ptr {self.place(33)}, align 1") for _ in range(2))
        one = self.new(f"insertelement <16 x i8> {one}, i8 {self.value(8)}, i64 {self.random.randrange(16)}")
        mixed = self.new(f"{self.random.choice(('add', 'sub', 'and', 'or', 'xor'))} <16 x i8> {one}, {other}")
        mask = ", ".join(f"i32 {self.random.randrange(32)}" for _ in range(16))
        mixed = self.new(f"shufflevector <16 x i8> {mixed}, <16 x i8> {other}, <16 x i32> <{mask}>")
        bits = self.new(f"icmp {self.random.choice(COMPARISONS)} <16 x i8> {mixed}, {other}")
        self.new(f"bitcast <16 x i1> {bits} to i16", 16)
        wide = self.new(f"sext <16 x i1> {bits} to <16 x i8>")
        self.lines.append(f"  store <16 x i8> {wide}, ptr {self.place(33)}, align 1")
        self.new(f"extractelement <16 x i8> {mixed}, i64 {self.random.randrange(16)}", 8)

    def frozen(self):
        bits = self.width()
        self.new(f"freeze i{bits} {self.value(bits)}", bits)

    def block(self, count=6):
        """Some instructions, none of which ends the block."""
        steps = (self.arithmetic, self.arithmetic, self.arithmetic, self.division, self.shift, self.shift, self.comparison, self.choice,
                 self.function, self.memory, self.stack, self.struct, self.frozen)
        for _ in range(self.random.randrange(2, count)):
            self.random.choice(steps)()
        if self.has_vectors and self.random.random() < 0.15:
            self.vector()

    def label(self, name):
        self.lines.append(f"{name}:")

    def diamond(self, tag):
        """Two or more ways, by a branch or a switch, and a phi where they meet."""
        bits = self.width()
        ways = [f"{tag}w{number}" for number in range(self.random.choice((2, 2, 3, 4)))]
        if len(ways) == 2:
            self.lines.append(f"  br i1 {self.value(1)}, label %{ways[0]}, label %{ways[1]}")
        else:
            type_ = self.width([width for width in WIDTHS if 2 < width <= 64])
            cases = " ".join(f"i{type_} {number}, label %{way}" for number, way in enumerate(ways[1:]))
            chosen = self.new(f"and i{type_} {self.value(type_)}, 3")
            self.lines.append(f"  switch i{type_} {chosen}, label %{ways[0]} [ {cases} ]")
        known, incoming = list(self.values), []
        for way in ways:
            self.values = list(known)
            self.label(way)
            self.block(4)
            incoming.append(f"[ {self.value(bits)}, %{way} ]")
            self.lines.append(f"  br label %{tag}end")
        self.values = known
        self.label(f"{tag}end")
        self.new(f"phi i{bits} {', '.join(incoming)}", bits)

    def loop(self, tag):
        """A loop whose phis take one another's values at each turn."""
        bits = self.width()
        begin = [self.value(bits) for _ in range(3)]
        entry = f"{tag}entry"
        self.lines += [f"  br label %{entry}", f"{entry}:", f"  br label %{tag}"]
        self.label(tag)
        number = f"%{tag}n"
        phis = [f"%{tag}p{place}" for place in range(3)]
        turned = [*phis[1:], phis[0]] if self.random.random() < 0.5 else [phis[1], phis[0], f"%{tag}next"]
        self.lines.append(f"  {number} = phi i64 [ 0, %{entry} ], [ %{tag}m, %{tag} ]")
        for phi, first, later in zip(phis, begin, turned):
            self.lines.append(f"  {phi} = phi i{bits} [ {first}, %{entry} ], [ {later}, %{tag} ]")
        known = list(self.values)
        self.values = [*known[-6:], *((phi, bits) for phi in phis), (number, 64)]
        self.block(4)
        last = self.value(bits)
        self.lines += [f"  %{tag}next = add i{bits} {last}, {phis[2]}", f"  %{tag}m = add nuw nsw i64 {number}, 1",
                       f"  %{tag}go = icmp ult i64 %{tag}m, {self.random.randrange(1, 9)}",
                       f"  br i1 %{tag}go, label %{tag}, label %{tag}end"]
        self.label(f"{tag}end")
        self.values = [*known, *((phi, bits) for phi in phis), (f"%{tag}next", bits)]

    def text(self):
        self.block()
        for part in range(self.random.randrange(1, 4)):
            self.random.choice((self.diamond, self.loop))(f"b{part}")
            self.block()
        total = "%a"
        for name, bits in self.values[1:][-8:]:
            if bits > 64:
                name = self.new(f"xor i{bits} {name}, {self.new(f'lshr i{bits} {name}, 61')}")
            if bits != 64:
                name = self.new(f"{'trunc' if bits > 64 else 'zext'} i{bits} {name} to i64")
            total = self.new(f"xor i64 {total}, {name}")
            total = self.new(f"mul i64 {total}, 1099511628211")
        body = "\n".join(self.lines)
        return f"define i64 @p11_test_{self.number}(i64 %a, ptr %m) {{\nstart:\n{body}\n  ret i64 {total}\n}}\n"


def declarations():
    """Of LLVM's functions that the functions call."""
    for bits in WHOLE:
        for name in ("umin", "umax", "smin", "smax", "usub.sat", "uadd.sat"):
            yield f"declare i{bits} @llvm.{name}.i{bits}(i{bits}, i{bits})"
        for name in ("fshl", "fshr"):
            yield f"declare i{bits} @llvm.{name}.i{bits}(i{bits}, i{bits}, i{bits})"
        for name in ("cttz", "ctlz", "abs"):
            yield f"declare i{bits} @llvm.{name}.i{bits}(i{bits}, i1)"
        yield f"declare i{bits} @llvm.ctpop.i{bits}(i{bits})"
        if bits > 8:
            yield f"declare i{bits} @llvm.bswap.i{bits}(i{bits})"


def module(first, count, has_vectors):
    """The text of a module with functions of these numbers, which are their seeds too."""
    return "\n".join([*declarations(), "", *(Maker(number, has_vectors).text() for number in range(first, first + count))])


def driver(first, count):
    """A program of C that calls each function on some numbers and rows, and prints what it makes of them."""
    calls = "\n".join(f"    show({number}, p11_test_{number});" for number in range(first, first + count))
    heads = "\n".join(f"uint64_t p11_test_{number}(uint64_t, uint8_t *);" for number in range(first, first + count))
    return f"""#include <stdint.h>
#include <stdio.h>
#include <string.h>
{heads}
static void show(int number, uint64_t (*function)(uint64_t, uint8_t *)) {{
    static const uint64_t given[] = {{0, 1, 0x8000000000000000u, 0xffffffffffffffffu, 0x0123456789abcdefu, 0x80007fff01fe40aau}};
    uint8_t row[{MEMORY}];
    int turn, at;
    printf("%d", number);
    for (turn = 0; turn < 6; turn++) {{
        uint64_t sum = 0;
        for (at = 0; at < {MEMORY}; at++) row[at] = (uint8_t)(given[turn] >> at % 57 ^ (uint64_t)(37 * at * turn));
        sum = function(given[turn], row);
        for (at = 0; at < {MEMORY}; at++) sum = (sum ^ row[at]) * 1099511628211u;
        printf(" %016llx", (unsigned long long)sum);
    }}
    printf("\\n");
}}
int main(void) {{
{calls}
    return 0;
}}
"""
