"""Does cases of a file again on the watched model."""
from . import sequences, state


def begin(machine, case):
    """Puts the model into a case's state. Words that the case doesn't name are 0."""
    before = {**state.blank(), **case["initial"]}
    state.put(machine, before)
    sequences.leave(machine)
    if case["kind"] == "devices":
        sequences.put_devices(machine, case["initial"]["devices"])
    machine.begin(lambda wanted, added, place: 0)
    for run in case["initial"]["ram"]:
        for at, word in enumerate(run[1:]):
            machine.memory.place(run[0] + 2 * at, word)


def done(machine, case):
    begin(machine, case)
    for _ in range(case["turns"]):
        machine.turn()
