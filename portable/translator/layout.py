"""How values of a type are held in C, and how they lie in memory.

A number is held, with zeros above its bits, in the smallest of u8, u16, u32, u64 and w128 that has room for it; in memory it has
as many bytes as its bits take. A pointer is a P, and has 8 bytes in memory on each machine."""
from .text import Array, Int, Pointer, Struct, Unknown, Vector, Void


def is_wide(type_):
    return isinstance(type_, Int) and type_.bits > 64


def held(type_):
    """The C type that holds a value."""
    if isinstance(type_, Pointer):
        return "P"
    if isinstance(type_, Void):
        return "void"
    if isinstance(type_, Int):
        if type_.bits > 128:
            raise Unknown(f"a number of {type_.bits} bits")
        return next((f"u{bits}" for bits in (8, 16, 32, 64) if type_.bits <= bits), "w128")
    if isinstance(type_, Vector) and isinstance(type_.of, Int) and type_.of.bits in (1, 8):
        return f"struct v{type_.count}"
    if isinstance(type_, Struct):
        return f"struct {struct_name(type_)}"
    raise Unknown(f"no value is of type {type_}")


def struct_name(type_):
    """A name that tells the parts."""
    return "s" + "".join("_" + ("p" if isinstance(part, Pointer) else str(part.bits) if isinstance(part, Int) else struct_name(part))
                         for part in type_.parts)


def room(bits):
    """The bits of the C type that computes with numbers of so many bits."""
    return 32 if bits <= 32 else 64 if bits <= 64 else 128


def stored(bits):
    """The bytes that a number of so many bits has in memory where it is loaded or stored."""
    return -(-bits // 8)


def align(type_):
    if isinstance(type_, Int):
        return next((size for size in (1, 2, 4, 8) if stored(type_.bits) <= size), 16)
    if isinstance(type_, Pointer):
        return 8
    if isinstance(type_, Array):
        return align(type_.of)
    if isinstance(type_, Struct):
        return 1 if type_.is_packed else max((align(part) for part in type_.parts), default=1)
    raise Unknown(f"no memory has type {type_}")


def size(type_):
    """The bytes of a variable of this type, and so from one element of an array to the next."""
    if isinstance(type_, (Int, Pointer)):
        return align(type_) * (-(-stored(getattr(type_, "bits", 64)) // align(type_)))
    if isinstance(type_, Array):
        return type_.count * size(type_.of)
    if isinstance(type_, Struct):
        return rounded(offset(type_, len(type_.parts)), align(type_))
    raise Unknown(f"no memory has type {type_}")


def rounded(number, step):
    return -(-number // step) * step


def offset(type_, number):
    """The bytes before a part of a struct; before the part behind the last: all bytes."""
    at = 0
    for place, part in enumerate(type_.parts):
        at = at if type_.is_packed else rounded(at, align(part))
        if place == number:
            return at
        at += size(part)
    return at
