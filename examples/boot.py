"""boot.py PACK TEXT NEW: boots a pack, types TEXT and a return, and writes the changed pack to NEW."""
import sys

import p11

pack, text, new = sys.argv[1:]
with p11.Machine(kwords=28) as machine, open(pack, "rb") as image, open(new, "wb") as file:
    machine.mount(0, image.read())
    machine.boot()
    print(machine.run().reason, machine.typed.decode())
    machine.key(text + "\r")
    print(machine.run().turns, machine.typed.decode())
    machine.step(1000)
    print(machine.regs, machine.changed(0))
    file.write(machine.pack(0))
