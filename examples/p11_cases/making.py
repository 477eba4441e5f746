"""Makes cases: draws them on the model, has the proved program do them, and compares the two."""
import tempfile

from . import instructions, program, rules, sequences, state
from .program import Fault
from .tracing import Machine

BATCH = 250


class Modelled:
    """A case as the model has done it: its line but for the state after it, and that state as the model has it."""

    def __init__(self, drawn, machine):
        self.after, self.first = state.taken(machine), dict(machine.memory.first)
        self.memory = dict(machine.memory)
        self.devices = sequences.devices_after(machine) if drawn.kind == "devices" else None
        initial = {**state.without_usual(drawn.before), "ram": state.runs(self.first)}
        self.case = {"name": drawn.name, "kind": drawn.kind, "turns": drawn.turns, "initial": initial, "final": {},
                     "traps": list(machine.traps)}
        if drawn.kind == "instruction":
            self.case["refs"] = machine.references
            self.case["book"] = rules.place_of(machine.instructions[0][0]) if machine.instructions else rules.FETCH
        self.case["own"] = sorted(machine.marks)

    def finished(self, after, memory, devices=None):
        """The case with the state that the program has come to; Fault if the model has come to another."""
        wrong = [f"{name}: p11 has {word}, the model {self.after[name]}" for name, word in after.items()
                 if word != self.after[name]]
        wrong += [f"{address:06o}: p11 has {word:06o}, the model {self.memory[address]:06o}"
                  for address, word in memory.items() if word != self.memory[address]]
        if devices != self.devices:
            wrong += [f"{name}: p11 has {shown}, the model {self.devices[name]}" for name, shown in devices.items()
                      if shown != self.devices[name]]
        if wrong:
            raise Fault(f"{self.case['name']}: the proved program and the model differ; {'; '.join(wrong[:4])}")
        final = state.changes({**state.blank(), **self.case["initial"]}, after)
        changed = {address: word for address, word in memory.items() if word != self.first[address]}
        if changed:
            final["ram"] = state.runs(changed)
        if devices is not None:
            final["devices"] = devices
        self.case["final"] = final
        return self.case


def in_batches(drawn, size):
    """Lists of what is drawn, of a size."""
    batch = []
    for one in drawn:
        batch.append(one)
        if len(batch) == size:
            yield batch
            batch = []
    if batch:
        yield batch


def of_processor(command, drawn):
    """Finished cases without devices, many on one machine."""
    for batch in in_batches(drawn, BATCH):
        states = program.states(command, [modelled.case for modelled in batch])
        for modelled, (after, memory) in zip(batch, states):
            yield modelled.finished(after, memory)


def of_devices(command, drawn):
    """Finished cases with devices, each on a new machine."""
    with tempfile.TemporaryDirectory() as folder:
        for modelled in drawn:
            yield modelled.finished(*program.with_devices(command, modelled.case, folder))


def instruction_cases(machine, seed, count):
    """Of each kind of instruction and operands as many cases as `count` asks for."""
    for kind in instructions.kinds():
        for number in range(count * kind.share):
            yield Modelled(instructions.draw(machine, seed, kind, number), machine)


def sequence_cases(machine, seed, count):
    for number in range(count):
        yield Modelled(sequences.draw(machine, seed, number), machine)


def device_cases(machine, seed, count):
    for number in range(count):
        modelled = Modelled(sequences.draw_devices(machine, seed, number), machine)
        sequences.leave(machine)
        yield modelled


def made(command, seed, size):
    """All cases of a seed and a size (how many of each kind of instruction, how many sequences, how many with devices)."""
    machine, (each, some, others) = Machine(), size
    yield from of_processor(command, instruction_cases(machine, seed, each))
    yield from of_processor(command, sequence_cases(machine, seed, some))
    yield from of_devices(command, device_cases(machine, seed, others))
