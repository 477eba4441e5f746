"""The parts of examples/asm, an assembler for the PDP-11/40, and the disassembler of examples/why."""
