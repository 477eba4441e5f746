"""Expressions of C for LLVM's arithmetic. Each expression is a number in its type's range, whatever its C type is; a product, sum or
shift is made in u32, u64 or w128, and cut to its bits. A count of a shift that LLVM leaves undefined is cut, so that C defines it."""
import re

from .layout import held, is_wide, room
from .text import Int, Pointer, Unknown

SIGNED = {"slt": "<", "sle": "<=", "sgt": ">", "sge": ">="}
UNSIGNED = {"eq": "==", "ne": "!=", "ult": "<", "ule": "<=", "ugt": ">", "uge": ">="}
WRAPPING = {"add": "+", "sub": "-", "mul": "*"}
EXACT = {"and": "&", "or": "|", "xor": "^", "udiv": "/", "urem": "%"}
DIVIDING = {"sdiv": "/", "srem": "%"}
SHIFTS = ("shl", "lshr", "ashr")
ARITHMETIC = {*WRAPPING, *EXACT, *DIVIDING, *SHIFTS}
WIDE = {"add", "sub", "mul", "and", "or", "xor", *SHIFTS}
CASTS = ("zext", "sext", "trunc", "ptrtoaddr", "ptrtoint", "inttoptr")
WHOLE = (8, 16, 32, 64, 128)


def literal(number, type_):
    if isinstance(type_, Pointer):
        return f"(P)(uintptr_t){number}U"
    number %= 1 << type_.bits
    if is_wide(type_):
        return f"mk128(0x{number >> 64:x}ULL,0x{number & 2 ** 64 - 1:x}ULL)"
    text = str(number) if number < 1 << 31 else f"0x{number:x}"
    return text + ("" if type_.bits <= 16 else "U" if type_.bits <= 32 else "ULL")


def as_literal(text):
    """The number that a text is, if it is one."""
    match = re.fullmatch(r"(\d+|0x[0-9a-f]+)U?L*", text)
    return int(match[1], 0) if match else None


def cut(type_, text):
    """The bits of an expression that its type has."""
    bits = type_.bits
    if is_wide(type_):
        return text if bits == 128 else f"and128({text},{literal(-1, type_)})"
    if bits in (32, 64):
        return f"({text})"
    if bits in WHOLE:
        return f"({held(type_)})({text})"
    return f"({held(type_)})(({text})&{literal(-1, type_)})"


def signed(type_, text):
    """The same number with its sign, as a signed expression of C."""
    bits = type_.bits
    if bits in (8, 16, 32, 64):
        return f"(s{bits})({text})"
    wide = room(bits)
    return f"((s{wide})((u{wide})({text})<<{wide - bits})>>{wide - bits})"


def signed_wide(type_, text):
    """The same number with its sign, as a number of 128 bits."""
    return text if type_.bits == 128 else f"ashr128(shl128({text},{128 - type_.bits}),{128 - type_.bits})"


def shift_count(type_, text):
    """The count of a shift, as a number that C takes."""
    most = room(type_.bits) - 1
    number = as_literal(text)
    if number is not None:
        return str(number & most)
    if is_wide(type_):
        number = re.fullmatch(r"mk128\(0x[0-9a-f]+ULL,0x([0-9a-f]+)ULL\)", text)
        return str(int(number[1], 16) & most) if number else f"((unsigned)lo128({text})&{most})"
    return f"({text}&{most})"


def arithmetic(op, type_, left, right):
    if not isinstance(type_, Int):
        raise Unknown(f"{op} of {type_}")
    if is_wide(type_):
        return wide_arithmetic(op, type_, left, right)
    wide = f"(u{room(type_.bits)})"
    if op in WRAPPING:
        return cut(type_, f"{wide}{left}{WRAPPING[op]}{wide}{right}")
    if op in EXACT:
        return f"({held(type_)})({left}{EXACT[op]}{right})"
    if op in DIVIDING:
        return cut(type_, f"{wide}({signed(type_, left)}{DIVIDING[op]}{signed(type_, right)})")
    count = shift_count(type_, right)
    if op == "shl":
        return cut(type_, f"{wide}{left}<<{count}")
    if op == "lshr":
        return f"({held(type_)})({wide}{left}>>{count})"
    return cut(type_, f"{wide}((s{room(type_.bits)}){signed(type_, left)}>>{count})")


def wide_arithmetic(op, type_, left, right):
    if op not in WIDE:
        raise Unknown(f"{op} of {type_.bits} bits")
    if op == "ashr":
        left = signed_wide(type_, left)
    text = f"{op}128({left},{shift_count(type_, right) if op in SHIFTS else right})"
    return text if op in ("and", "or", "xor", "lshr") else cut(type_, text)


def comparison(how, type_, left, right):
    if isinstance(type_, Pointer):
        if how in SIGNED:
            raise Unknown(f"icmp {how} of pointers")
        return f"((uintptr_t){left}{UNSIGNED[how]}(uintptr_t){right})"
    if is_wide(type_):
        if how in SIGNED:
            left, right = signed_wide(type_, left), signed_wide(type_, right)
        return f"{how}128({left},{right})"
    if how in SIGNED:
        return f"({signed(type_, left)}{SIGNED[how]}{signed(type_, right)})"
    return f"({left}{UNSIGNED[how]}{right})"


def cast(op, from_, text, to):
    if op in ("ptrtoaddr", "ptrtoint"):
        return cut(to, f"adr({text})") if not is_wide(to) else f"zx128(adr({text}))"
    if op == "inttoptr":
        return f"(P)(uintptr_t){text}"
    if op == "zext":
        return f"zx128({text})" if is_wide(to) and not is_wide(from_) else text if is_wide(to) else f"({held(to)}){text}"
    if op == "sext":
        if is_wide(from_):
            return cut(to, signed_wide(from_, text))
        return cut(to, f"sx128((s64){signed(from_, text)})" if is_wide(to) else f"(u{room(to.bits)})(s{room(to.bits)}){signed(from_, text)}")
    if is_wide(from_) and not is_wide(to):
        text = f"lo128({text})"
    return cut(to, text)


# LLVM's functions of numbers that support.h has for each whole width up to 64 bits, and how many arguments of them count.
FUNCTIONS = {"umin": 2, "umax": 2, "smin": 2, "smax": 2, "usub.sat": 2, "uadd.sat": 2, "fshl": 3, "fshr": 3, "ctpop": 1, "cttz": 1, "ctlz": 1,
             "bswap": 1, "abs": 1}
WIDE_FUNCTIONS = {"umin", "umax"}


def function(name, type_, given):
    """A call of one of LLVM's functions of numbers."""
    bits = type_.bits
    if name not in FUNCTIONS or bits > 64 and (bits < 128 or name not in WIDE_FUNCTIONS):
        raise Unknown(f"no function {name} of {bits} bits")
    given = given[:FUNCTIONS[name]]
    if bits in WHOLE:
        return f"{name.replace('.', '_')}{bits}({','.join(given)})"
    return narrow_function(name, type_, given)


def narrow_function(name, type_, given):
    """The same of a width between two whole ones, by the function of the next one."""
    whole = Int(int(held(type_)[1:]))
    first, last = given[0], given[-1]
    if name in ("umin", "umax", "usub.sat", "ctpop"):
        return function(name, whole, given)
    if name in ("smin", "smax"):
        return f"({comparison('slt' if name == 'smin' else 'sgt', type_, first, last)}?{first}:{last})"
    if name == "abs":
        return cut(type_, function(name, whole, [cast("sext", type_, first, whole)]))
    if name == "uadd.sat":
        return function("umin", whole, [f"({held(type_)})({first}+{last})", literal(-1, type_)])
    if name == "cttz":
        return function("umin", whole, [function(name, whole, given), literal(type_.bits, whole)])
    if name == "ctlz":
        return f"({held(type_)})({function(name, whole, given)}-{whole.bits - type_.bits})"
    raise Unknown(f"no function {name} of {type_.bits} bits")
