"""A PDP-11/40 that is proved, from Python.

    from p11 import Machine

    with Machine(kwords=28) as m:
        m.mount(0, open("my.pack", "rb").read())
        m.boot()
        m.run()
        m.key("HELLO\\r")
        m.run()
        print(m.typed, m.regs, m.changed(0))
        open("new.pack", "wb").write(m.pack(0))

Addresses and words are numbers, so 0o1000 is the address 1000 of the handbooks. A refusal is the exception Refused, with its
number and its name; what the library can't do is Failed; both are ValueErrors where a number is out of range. Turns are the only
clock. A machine belongs to one thread at a time: a call beside another thread's is refused by InUse.
"""
from .library import Failed, InUse, OutOfRange, version
from .machine import Machine, Refused, Registers, Stop

__all__ = ["Failed", "InUse", "Machine", "OutOfRange", "Refused", "Registers", "Stop", "version"]
